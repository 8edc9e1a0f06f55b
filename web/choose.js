// @ts-check
/** Which printers are chosen, and what comes in: files, what is dropped, and what is pasted. */
import { byId, find, make, makeButton } from "./dom.js";
import { addFiles, changePrinters, printers, state } from "./state.js";
import { say } from "./texts.js";

/** @type {[string, import("./texts.js").TextName][]} */
const PAPERS = [["2", "paper2"], ["26", "paper26"], ["2 26", "paperFree"]];

/** Two jobs to try: the box of the second reaches past the printable area. */
const FONT = "\x1b(10U\x1b(s0p10h12v0s0b3T";
const BEGIN = `\x1bE\x1b&l0O${FONT}\x1b&l8C\x1b*p300x300YTotal\x1b*p300x330Y`;
const EXAMPLES = {
  "example_1.pcl": "\x1b*c600a30b0P\x1bE",
  "example_2.pcl": "\x1b*c2400a90b0P\x1bE",
};

let pastedCount = 0;
/** @type {import("./state.js").Own[]} */
let shownOwn = [];

/** Readies the ways in. */
export function readyInputs() {
  const files = find("input", "files");
  byId("choose").onclick = () => files.click();
  files.onchange = async () => {
    await addFiles([...(files.files ?? [])]);
    files.value = "";
  };
  byId("try").onclick = () =>
    addFiles(Object.entries(EXAMPLES).map(([name, rest]) => new File([BEGIN + rest], name)));
  const pasted = find("textarea", "pasted");
  byId("add-pasted").onclick = () => {
    addText(pasted.value);
    pasted.value = "";
  };
  readyDrop();
  document.onpaste = (event) => {
    const isField = event.target instanceof Element && event.target.matches("input, textarea");
    if (isField || !event.clipboardData) return;
    const { files: given } = event.clipboardData;
    if (given.length > 0) addFiles([...given]);
    else addText(event.clipboardData.getData("text/plain"));
  };
}

function readyDrop() {
  const drop = byId("drop");
  document.ondragover = (event) => {
    event.preventDefault();
    drop.classList.add("over");
  };
  document.ondragleave = () => drop.classList.remove("over");
  document.ondrop = (event) => {
    event.preventDefault();
    drop.classList.remove("over");
    addFiles([...(event.dataTransfer?.files ?? [])]);
  };
}

// Adds a text that was pasted; \xNN in it is a byte, as in `pclcheck list`.
/** @param {string} text */
function addText(text) {
  if (text === "") return;
  const name = say("pastedName", { n: ++pastedCount });
  const pieces = text.split(/(\\x[0-9a-fA-F]{2}|\\\\)/).map((piece) => {
    if (piece === "\\\\") return "\\";
    return /^\\x..$/.test(piece) ? Uint8Array.of(parseInt(piece.slice(2), 16)) : piece;
  });
  addFiles([new File(pieces, name)]);
}

/** Readies the lists of printers. */
export function readyPrinters() {
  const paper = find("select", "paper");
  paper.append(...PAPERS.map(([value, name]) => new Option(say(name), value)));
  paper.value = state.paper;
  paper.onchange = () => {
    state.paper = paper.value;
    changePrinters();
  };
  byId("models").append(
    ...state.models.map(({ name, title }) =>
      choiceRow(title, state.chosenModels.has(name), (isChosen) => {
        if (isChosen) state.chosenModels.add(name);
        else state.chosenModels.delete(name);
        changePrinters();
      }),
    ),
  );
  find("details", "printers").open = printers().length === 0;
}

/** Shows which printers are chosen, and the profiles that were given where these are others. */
export function showPrinters() {
  const names = printers().map(({ name }) => name);
  byId("printers-told").textContent =
    names.length === 0 ? say("printersNone") : say("printersChosen", { names: names.join(", ") });
  if (shownOwn !== state.own) byId("own").replaceChildren(...state.own.map(ownRow));
  shownOwn = state.own;
  byId("keeps").hidden = state.keeps;
}

/** @param {import("./state.js").Own} own */
function ownRow(own) {
  const remove = makeButton(say("remove"), () => {
    state.own = state.own.filter((it) => it !== own);
    changePrinters();
    byId("choose").focus();
  });
  remove.ariaLabel = say("removeNamed", { name: own.name });
  if (own.fault) {
    const fault = make("pre", { className: "FAIL", textContent: own.fault });
    return make("li", {}, `${own.file}: ${say("refusedProfile")} `, remove, fault);
  }
  const row = choiceRow(`${own.name} (${own.file}) `, own.isChosen, (isChosen) => {
    own.isChosen = isChosen;
    changePrinters();
  });
  row.append(remove);
  if (own.hints) row.append(make("pre", { className: "dim", textContent: own.hints }));
  return row;
}

/**
 * A row with a box to choose.
 * @param {string} text
 * @param {boolean} checked
 * @param {(isChosen: boolean) => void} change
 */
function choiceRow(text, checked, change) {
  const box = make("input", { type: "checkbox", checked });
  box.onchange = () => change(box.checked);
  return make("li", {}, make("label", {}, box, ` ${text}`));
}
