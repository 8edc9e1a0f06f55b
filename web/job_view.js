// @ts-check
/** A job opened: what is told of it, its items and bytes, notes, and downloads. */
import { ask } from "./checker.js";
import { byId, find, make, makeButton, save, whyOf } from "./dom.js";
import { TOGETHER, printers, resultOf, verdict } from "./state.js";
import { focusRow, shownJobs } from "./table.js";
import { say, valueName } from "./texts.js";
import { panelOf, showNoPage, showPages } from "./viewer.js";

/** @typedef {import("./state.js").Job} Job */
/** @typedef {import("./state.js").Printer} Printer */
/** @typedef {import("./state.js").Result} Result */

const BYTES_BEFORE = 16;
const BYTES_BEHIND = 40;
const BYTES_IN_ROW = 8;
const VMI_PARTS = 10_000;

/** @type {{ job: Job, key: string } | null} */
let opened = null;

/** Readies the view of a job. */
export function readyJob() {
  const dialog = find("dialog", "job");
  byId("job-close").onclick = () => dialog.close();
  dialog.onclose = () => {
    if (opened) focusRow(opened.job);
    opened = null;
    showNoPage();
  };
  byId("job-previous").onclick = () => openBeside(-1);
  byId("job-next").onclick = () => openBeside(1);
  find("select", "job-printer").onchange = () => {
    if (opened) openJob(opened.job, find("select", "job-printer").value);
  };
}

/** @param {number} step */
function openBeside(step) {
  const jobs = shownJobs();
  const next = opened && jobs[jobs.indexOf(opened.job) + step];
  if (next) openJob(next, opened?.key ?? TOGETHER);
}

/**
 * Opens a job, for one printer or for all together.
 * @param {Job} job
 * @param {string} key
 */
export async function openJob(job, key) {
  const fleet = printers();
  const now = (opened = { job, key });
  const isStill = () => opened === now;
  showHead(job, key, fleet);
  const one = fleet.find((it) => it.key === key);
  let result = resultOf(job, fleet.length > 1 ? key : TOGETHER);
  showSentence(result);
  if (result.status === "PASS" && one && fleet.length > 1) result = await verdict(job, [one]);
  if (!isStill() || fleet.length === 0) return;
  showSentence(result);
  const failing = one || !("printer" in result) ? 0 : Math.max(1, result.printer) - 1;
  const printer = one ?? fleet[failing];
  showDownloads(job, printer);
  if (result.status === "PASS" || result.status === "FAIL") showPages(job, printer, result);
  else showNoPage();
  showExplanation(result, isStill);
  byId("items").replaceChildren(make("p", { className: "dim" }, say("itemsHelp")));
  if (result.status === "FAIL") showItems(job, result.place);
  byId("notes").replaceChildren();
  if (result.status === "PASS") showNotes(job, printer, isStill);
}

// Shows the open job anew, where its checks have come further.
/** @param {Set<Job> | null} jobs */
export function refreshJob(jobs) {
  const wasWaiting = byId("sentence").className === "WAITING";
  if (opened && jobs?.has(opened.job) && wasWaiting) openJob(opened.job, opened.key);
}

/**
 * @param {Job} job
 * @param {string} key
 * @param {Printer[]} fleet
 */
function showHead(job, key, fleet) {
  byId("job-name").textContent = job.name;
  const select = find("select", "job-printer");
  const options = fleet.map(({ name, key }) => new Option(name, key));
  if (fleet.length > 1) options.unshift(new Option(say("allTogether"), TOGETHER));
  select.replaceChildren(...options);
  select.value = fleet.length > 1 ? key : (fleet[0]?.key ?? "");
  const jobs = shownJobs();
  find("button", "job-previous").disabled = jobs.indexOf(job) <= 0;
  find("button", "job-next").disabled = jobs.indexOf(job) === jobs.length - 1;
  const dialog = find("dialog", "job");
  if (!dialog.open) dialog.showModal();
}

/** @param {Result} result */
function showSentence(result) {
  const told = byId("sentence");
  told.className = result.status;
  told.textContent = result.sentence;
}

/**
 * What `explain` tells of what a job fails by, and of a command that is not checked.
 * @param {Result} result
 * @param {() => boolean} isStill
 */
async function showExplanation(result, isStill) {
  const section = byId("explanation");
  section.replaceChildren();
  if (result.status !== "FAIL") return;
  const command = /^3 \w+\((.*)\)$/.exec(result.finding)?.[1];
  for (const code of [String(result.number), ...(command ? [command] : [])]) {
    const text = await ask("explain", [code]).catch(() => "");
    if (!isStill()) return;
    section.append(...explained(text));
  }
}

// An explanation: its first line, and the parts below it, which have names.
/** @param {string} text */
export function explained(text) {
  if (text === "") return [];
  const [title, ...lines] = text.trimEnd().split("\n");
  const list = make("dl");
  for (const line of lines) {
    const [, name, words] = /^  ([A-Z][a-z]*): +(.*)$/.exec(line) ?? ["", "", line.trim()];
    if (name) list.append(make("dt", {}, name), make("dd", {}, words));
    else list.lastElementChild?.append(` ${words}`);
  }
  return [make("h3", {}, title), list];
}

// ---- items and bytes

// Shows the items and the bytes around a place of the open job.
/** @param {number} place */
export function showItemsAt(place) {
  if (opened) showItems(opened.job, place);
}

/**
 * @param {Job} job
 * @param {number} place
 */
async function showItems(job, place) {
  const isStill = () => opened?.job === job;
  /** @type {import("./module.js").Listed[]} */
  const items = await ask("listAround", [place], job).catch(() => []);
  const end = items.find((item) => item.place > place)?.place ?? place + 1;
  const bytes = await bytesAround(job, place, end);
  if (!isStill()) return;
  /** @type {HTMLElement[]} */
  const rows = items.map((item) =>
    make(item.place === place ? "mark" : "span", {}, `${item.place} ${item.spelling}\n`),
  );
  // Bytes that are no item, and the end of the job, have no line of their own.
  if (!items.some((item) => item.place === place)) rows.push(make("mark", {}, `${place}\n`));
  byId("items").replaceChildren(
    make("h3", {}, say("items", { place })),
    make("pre", { tabIndex: 0 }, ...rows),
    make("h3", {}, say("bytes")),
    make("pre", { tabIndex: 0 }, ...bytes),
  );
}

/**
 * Rows of the bytes around an item, which is marked: the place, two digits for each, and letters.
 * @param {Job} job
 * @param {number} place
 * @param {number} end
 */
async function bytesAround(job, place, end) {
  const start = Math.max(0, place - (place % BYTES_IN_ROW) - BYTES_BEFORE);
  const slice = job.file.slice(start, start + BYTES_BEFORE + BYTES_BEHIND);
  const bytes = new Uint8Array(await slice.arrayBuffer().catch(() => new ArrayBuffer(0)));
  /** @type {(Node | string)[]} */
  const told = [];
  for (let row = 0; row < bytes.length; row += BYTES_IN_ROW) {
    const values = [...bytes.slice(row, row + BYTES_IN_ROW)];
    told.push(`${String(start + row).padStart(8)} `);
    values.forEach((value, at) => {
      const isOfItem = start + row + at >= place && start + row + at < end;
      const digits = value.toString(16).padStart(2, "0");
      told.push(" ", isOfItem ? make("mark", {}, digits) : digits);
    });
    const letters = values.map((it) => (it > 31 && it < 127 ? String.fromCharCode(it) : "."));
    told.push(`${"   ".repeat(BYTES_IN_ROW - values.length)}  ${letters.join("")}\n`);
  }
  return told;
}

// ---- notes

/**
 * @param {Job} job
 * @param {Printer} printer
 * @param {() => boolean} isStill
 */
async function showNotes(job, printer, isStill) {
  const section = byId("notes");
  const title = make("h3", {}, say("notes", { name: printer.name }));
  try {
    const { notes } = await ask("notes", [printer.profile], job);
    const rows = await Promise.all(notes.map(noteRow));
    if (isStill()) section.replaceChildren(title, ...(rows.length > 0 ? rows : [say("notesNone")]));
  } catch (error) {
    if (isStill()) section.replaceChildren(title, say("notesFailed", { why: whyOf(error) }));
  }
}

/** @param {import("./module.js").Note} note */
async function noteRow({ place, number, name }) {
  const text = await ask("explain", [String(number)]).catch(() => "");
  const at = makeButton(say("atByte", { place }), () => showItemsAt(place));
  const title = make("summary", {}, `${number} ${name}`);
  return make("details", {}, title, at, ...explained(text).slice(1));
}

// ---- downloads

/**
 * @param {Job} job
 * @param {Printer} printer
 */
function showDownloads(job, printer) {
  const told = make("p");
  told.setAttribute("role", "status");
  const selects = panelSelects(printer);
  const labels = selects.map((select) => make("label", {}, `${select.name} `, select, " "));
  /** @type {(call: string, given: any[], ending: string) => Promise<void>} */
  const write = async (call, given, ending) => {
    try {
      const { status, bytes, place, number } = await ask(call, given, job);
      save(savedName(job.name, ending), new Blob([bytes]));
      told.textContent = status === "PASS" ? "" : say("saveShort", { place, number });
    } catch (error) {
      told.textContent = say("saveFailed", { why: whyOf(error) });
    }
  };
  const pin = () => write("pin", [printer.profile, panelChosen(selects)], "pinned");
  byId("downloads").replaceChildren(
    make("h3", {}, say("downloads")),
    make("p", {}, makeButton(say("savePlain"), () => write("plain", [], "plain"))),
    make("p", {}, ...labels, makeButton(say("savePin", { name: printer.name }), pin)),
    told,
  );
}

// What may be chosen at a panel.
/** @param {Printer} printer */
function panelSelects(printer) {
  const choices = [...panelOf(printer.text)].filter(([, values]) => values.length > 1);
  return choices.map(([field, values]) => {
    const options = values.map((value) => new Option(valueName(field, value), value));
    return make("select", { name: field }, ...options);
  });
}

// What was chosen, as the module numbers it.
/** @param {HTMLSelectElement[]} selects */
function panelChosen(selects) {
  return Object.fromEntries(
    selects.map(({ name, value }) => {
      return [name, Math.round(Number(value) * (name === "vmi" ? VMI_PARTS : 1))];
    }),
  );
}

/**
 * The name of a job with a word before its ending.
 * @param {string} name
 * @param {string} word
 */
function savedName(name, word) {
  const dot = name.lastIndexOf(".");
  return dot > 0 ? `${name.slice(0, dot)}.${word}${name.slice(dot)}` : `${name}.${word}.pcl`;
}
