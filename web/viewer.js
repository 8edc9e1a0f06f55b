// @ts-check
/** A page of a job: zoom, a ruler at the pointer, and the mark under it. */
import { ask } from "./checker.js";
import { byId, find, make, save, whyOf } from "./dom.js";
import { say, valueName } from "./texts.js";

/** @typedef {import("./marks.js").Mark} Mark */
/** @typedef {import("./state.js").Job} Job */
/** @typedef {import("./state.js").Printer} Printer */
/** @typedef {{ x: number, y: number }} Point */
/**
 * @typedef {object} Shown
 * @property {Job} job
 * @property {Printer} printer
 * @property {number} page
 * @property {number} pages how many there are; 0 while that is not known
 * @property {import("./state.js").Result} result
 */

const UNITS_PER_INCH = 7200;
const MM_PER_INCH = 25.4;
/** How far from a mark the pointer may be, in units: half a millimetre. */
const REACH = 142;
const ZOOM_STEP = 1.25;

/** @type {Shown | null} */
let shown = null;
/** @type {{ marks: Mark[], width: number, height: number, failure: Point | null }} */
let drawn = { marks: [], width: 1, height: 1, failure: null };
/** @type {Point} */
let pointer = { x: 0, y: 0 };
/** @type {Point | null} */
let picked = null;
/** The mark at the pointer, by its number; -1 for none. */
let markAt = -1;
/** How many pixels of the page an inch has; 0 fits the page into its place. */
let pixels = 0;
/** @type {(place: number) => void} */
let pickItem = () => {};

// Readies the page; picked items are shown by this.
/** @param {(place: number) => void} pick */
export function readyViewer(pick) {
  pickItem = pick;
  byId("page-back").onclick = () => turnTo((shown?.page ?? 1) - 1);
  byId("page-forth").onclick = () => turnTo((shown?.page ?? 1) + 1);
  find("input", "page-number").onchange = () => turnTo(find("input", "page-number").valueAsNumber);
  byId("zoom-in").onclick = () => zoom(inch() * ZOOM_STEP);
  byId("zoom-out").onclick = () => zoom(inch() / ZOOM_STEP);
  byId("zoom-fit").onclick = () => zoom(0);
  const sheet = byId("sheet");
  sheet.onpointermove = sheet.onpointerdown = ({ clientX, clientY }) => {
    const { left, top } = sheet.getBoundingClientRect();
    const scale = UNITS_PER_INCH / inch();
    point({ x: (clientX - left) * scale, y: (clientY - top) * scale });
  };
  sheet.onclick = pickHere;
  byId("view").onkeydown = (event) => {
    if (!event.ctrlKey && !event.altKey && !event.metaKey && moveBy(event)) event.preventDefault();
  };
  new ResizeObserver(() => layOut()).observe(byId("view"));
}

/**
 * Shows a page of a job on a printer.
 * @param {Job} job
 * @param {Printer} printer
 * @param {import("./state.js").Result} result what is told of it there
 */
export async function showPages(job, printer, result) {
  const page = "page" in result ? Math.max(1, result.page) : 1;
  const isPass = result.status === "PASS";
  const now = (shown = { job, printer, page, pages: isPass ? result.pages : 0, result });
  picked = null;
  await draw();
  if (now.pages > 0) return;
  try {
    const pages = await ask("pageCount", [printer.profile], job);
    if (shown === now) now.pages = pages;
  } catch {
    // Without their number pages are turned one by one.
  }
  if (shown === now) showBar();
}

/** Shows no page. */
export function showNoPage() {
  shown = null;
  clear();
  showBar();
}

/** @param {number} page */
function turnTo(page) {
  if (!shown || !(page >= 1)) return showBar();
  shown.page = Math.round(shown.pages ? Math.min(page, shown.pages) : page);
  draw();
}

function clear() {
  byId("sheet").hidden = true;
  byId("page-save").hidden = true;
  byId("page-told").textContent = "";
  byId("pointer").textContent = "";
  URL.revokeObjectURL(find("img", "picture").src);
  drawn = { marks: [], width: 1, height: 1, failure: null };
  markAt = -1;
}

async function draw() {
  if (!shown) return;
  const { job, printer, page } = shown;
  clear();
  showBar();
  byId("page-told").textContent = say("pageDrawing");
  const isStill = () => shown?.job === job && shown.printer === printer && shown.page === page;
  try {
    const picture = await ask("picture", [printer.profile, page, job.name], job);
    if (isStill()) await put(picture);
  } catch (error) {
    if (isStill()) byId("page-told").textContent = say("pageNone", { why: whyOf(error) });
  }
}

/** @param {typeof drawn & { image: Blob, isBig: boolean }} picture */
async function put(picture) {
  if (!shown) return;
  const { job, printer, page } = shown;
  byId("page-save").onclick = () => save(`${job.name}.${page}.svg`, picture.image);
  byId("page-save").hidden = false;
  if (picture.isBig) {
    const size = Math.ceil(picture.image.size / (1 << 20));
    byId("page-told").textContent = say("pageBig", { size });
    return;
  }
  const image = find("img", "picture");
  image.src = URL.createObjectURL(picture.image);
  image.alt = say("pageAlt", { page, name: job.name, printer: printer.name });
  await image.decode().catch(() => {});
  drawn = picture;
  byId("sheet").hidden = false;
  byId("page-told").textContent = toldOfPage(shown).join(" ");
  pointer = { x: 0, y: 0 };
  layOut();
  // What fails comes into the middle.
  const down = ((drawn.failure?.y ?? 0) * inch()) / UNITS_PER_INCH;
  byId("view").scrollTo(0, down - byId("view").clientHeight / 2);
}

// What is told above a page: its panel, and what it shows of the failure.
/** @param {Shown} shown */
function toldOfPage({ printer, result, page }) {
  const panel = panelOf(printer.text);
  const first = [...panel].map(([field, values]) => `${field} ${valueName(field, values[0])}`);
  const told = [say("pageFirstPanel", { name: printer.name, panel: first.join(", ") })];
  if (result.status !== "FAIL" || result.page !== page) return told;
  if (result.kind === "differs") return [say("pageDiffers"), ...told];
  if (result.kind !== "panel") return [say("pageFails"), ...told];
  const field = /\((\w+)\)/.exec(result.finding)?.[1].toLowerCase() ?? "";
  const values = (panel.get(field) ?? []).slice(1).map((it) => valueName(field, it)).join(", ");
  return values === "" ? told : [...told, say("pageUnset", { field, values })];
}

// The fields of a panel with the values that a profile allows.
/** @param {string} text */
export function panelOf(text) {
  const field = /^(size|orientation|vmi|font|copies|sides|tray|lineterm) +(.*\S) *$/gm;
  /** @type {Map<string, string[]>} */
  const panel = new Map();
  for (const [, name, values] of text.matchAll(field)) panel.set(name, values.split(/ +/));
  return panel;
}

function showBar() {
  const { page, pages } = shown ?? { page: 1, pages: 1 };
  find("input", "page-number").value = String(page);
  find("button", "page-back").disabled = page <= 1;
  find("button", "page-forth").disabled = pages > 0 && page >= pages;
  byId("page-count").textContent = pages > 0 ? say("pageOf", { n: pages }) : "";
}

// ---- zoom

/** How many pixels an inch of the page has. */
function inch() {
  if (pixels > 0) return pixels;
  return (Math.max(200, byId("view").clientWidth - 2) * UNITS_PER_INCH) / drawn.width;
}

/** @param {number} next */
function zoom(next) {
  pixels = next === 0 ? 0 : Math.min(1200, Math.max(20, next));
  layOut();
}

function layOut() {
  const style = byId("sheet").style;
  const scale = inch() / UNITS_PER_INCH;
  style.width = `${drawn.width * scale}px`;
  style.height = `${drawn.height * scale}px`;
  // Millimetres that would lie too close are left out of the rulers.
  const step = inch() < 64 ? inch() / 2.54 : inch() / MM_PER_INCH;
  const steps = { inch: inch(), eighth: inch() / 8, centimetre: inch() / 2.54, step };
  for (const [name, size] of Object.entries(steps)) style.setProperty(`--${name}`, `${size}px`);
  showPointer();
}

// ---- pointer

// Does what a key is for; whether it is for something.
/** @param {KeyboardEvent} event */
function moveBy({ key, shiftKey }) {
  const step = ((shiftKey ? 10 : 1) * UNITS_PER_INCH) / MM_PER_INCH;
  const { x, y } = pointer;
  /** @type {{ [key: string]: (() => void) | undefined }} */
  const moves = {
    ArrowLeft: () => point({ x: x - step, y }),
    ArrowRight: () => point({ x: x + step, y }),
    ArrowUp: () => point({ x, y: y - step }),
    ArrowDown: () => point({ x, y: y + step }),
    n: () => pointAt(markAt + 1),
    b: () => pointAt(markAt - 1),
    Enter: pickHere,
    PageDown: () => turnTo((shown?.page ?? 1) + 1),
    PageUp: () => turnTo((shown?.page ?? 1) - 1),
    "+": () => zoom(inch() * ZOOM_STEP),
    "-": () => zoom(inch() / ZOOM_STEP),
    0: () => zoom(0),
  };
  const move = moves[key.length === 1 ? key.toLowerCase() : key];
  if (!move) return false;
  move();
  for (const ruler of [byId("across"), byId("down")]) {
    ruler.scrollIntoView({ block: "nearest", inline: "nearest" });
  }
  return true;
}

/** @param {Point} to */
function point({ x, y }) {
  pointer = { x: Math.min(drawn.width, Math.max(0, x)), y: Math.min(drawn.height, Math.max(0, y)) };
  markAt = nearest(pointer);
  showPointer();
}

/** @param {number} number */
function pointAt(number) {
  if (drawn.marks.length === 0) return;
  markAt = (number + drawn.marks.length) % drawn.marks.length;
  const { x, y } = drawn.marks[markAt];
  pointer = { x, y };
  showPointer();
}

function pickHere() {
  picked = pointer;
  if (markAt >= 0) pickItem(drawn.marks[markAt].place);
  showPointer();
}

// The smallest mark at a point, and of those the last that is drawn.
/** @param {Point} at */
function nearest(at) {
  let [found, least] = [-1, Infinity];
  drawn.marks.forEach((mark, number) => {
    const area = (mark.width + REACH) * (mark.height + REACH);
    if (area <= least && isAt(mark, at)) [found, least] = [number, area];
  });
  return found;
}

/**
 * @param {Mark} mark
 * @param {Point} at
 */
function isAt({ x, y, width, height, isLine, isRising }, at) {
  const [right, down] = [at.x - x, at.y - y];
  const isIn = right > -REACH && down > -REACH && right < width + REACH && down < height + REACH;
  if (!isIn || !isLine) return isIn;
  const along = isRising ? height - down : down;
  return Math.abs(right * height - along * width) <= REACH * Math.hypot(width, height);
}

/** @param {number} units */
const mm = (units) => ((units / UNITS_PER_INCH) * MM_PER_INCH).toFixed(2);
/** @param {number} units */
const inches = (units) => (units / UNITS_PER_INCH).toFixed(3);
/** @param {Point} point */
const measures = ({ x, y }) => ({ x: mm(x), xInch: inches(x), y: mm(y), yInch: inches(y) });

function showPointer() {
  const scale = inch() / UNITS_PER_INCH;
  byId("across").style.top = `${pointer.y * scale}px`;
  byId("down").style.left = `${pointer.x * scale}px`;
  const mark = drawn.marks[markAt];
  const box = byId("mark");
  box.hidden = !mark;
  if (mark) {
    const sides = { left: mark.x, top: mark.y, width: mark.width, height: mark.height };
    for (const [side, units] of Object.entries(sides)) {
      box.style.setProperty(side, `${units * scale}px`);
    }
  }
  const far = picked && { x: pointer.x - picked.x, y: pointer.y - picked.y };
  const told = say("pointer", measures(pointer)) + (far ? say("distance", measures(far)) : "");
  const size = mark && { title: mark.title, width: mm(mark.width), height: mm(mark.height) };
  byId("pointer").replaceChildren(told, make("br"), size ? say("mark", size) : "\u00a0");
}
