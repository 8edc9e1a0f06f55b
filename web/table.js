// @ts-check
/** The table of jobs and printers, which fills while checks go on. */
import { stopChecks } from "./checker.js";
import { byId, find, make, makeButton } from "./dom.js";
import { TOGETHER, checkAll, printers, resultOf, state } from "./state.js";
import { say } from "./texts.js";

/** @typedef {import("./state.js").Job} Job */
/** @typedef {import("./state.js").Result} Result */

const STATUSES = /** @type {const} */ (["All", "PASS", "FAIL", "OTHER"]);

/** @type {Map<Job, HTMLTableRowElement>} */
let rows = new Map();
/** @type {(job: Job, key: string) => void} */
let openOne = () => {};
let reading = { share: 1, name: "" };

// Readies the table, by which a job is opened.
/** @param {(job: Job, key: string) => void} open */
export function readyTable(open) {
  openOne = open;
  const status = find("select", "status");
  status.append(...STATUSES.map((name) => new Option("", name)));
  status.onchange = filter;
  byId("words").oninput = filter;
  byId("stop").onclick = () => (counts().waiting > 0 ? stopChecks() : checkAll());
}

// Shows jobs anew, or all.
/** @param {Set<Job> | null} jobs */
export function showTable(jobs) {
  byId("checks").hidden = state.jobs.length === 0;
  if (jobs) for (const job of jobs) fillRow(job);
  else showAll();
  filter();
  showProgress();
}

function showAll() {
  const fleet = printers();
  const names = fleet.length > 1 ? fleet.map(({ name }) => name) : [];
  const heads = [say("job"), say("verdict"), ...names].map((name, at) =>
    make("th", { scope: "col", className: at > 1 ? "turned" : "" }, make("span", {}, name)),
  );
  byId("table-head").replaceChildren(make("tr", {}, ...heads));
  rows = new Map(state.jobs.map((job) => [job, rowOf(job)]));
  byId("table-body").replaceChildren(...rows.values());
  for (const job of state.jobs) fillRow(job);
}

// A row that has the name of its job.
/** @param {Job} job */
function rowOf(job) {
  const button = makeButton("", () => openOne(job, TOGETHER));
  // A long name breaks behind these before it breaks within a word.
  const pieces = job.name.split(/([_.-]+)/);
  button.append(...pieces.flatMap((piece, at) => (at % 2 === 1 ? [piece, make("wbr")] : piece)));
  return make("tr", {}, make("th", { scope: "row" }, button));
}

// Fills a row. Its first cell stays, which may have the focus.
/** @param {Job} job */
function fillRow(job) {
  const row = rows.get(job);
  const result = resultOf(job, TOGETHER);
  const verdict = make("td", { className: result.status });
  verdict.append(make("b", {}, `${say(result.status)} `));
  if (result.status === "FAIL") {
    verdict.append(make("span", { className: "short" }, result.finding));
  }
  verdict.append(make("span", { className: "told" }, toldOf(job, result)));
  const fleet = printers();
  const cells = fleet.length > 1 ? fleet.map(({ key }) => cellOf(job, key)) : [];
  while (row && row.cells.length > 1) row.deleteCell(1);
  row?.append(verdict, ...cells);
}

/**
 * What came of a job on one printer. The keyboard reaches it in the job, which has its printers.
 * @param {Job} job
 * @param {string} key
 */
function cellOf(job, key) {
  const result = resultOf(job, key);
  const isFail = result.status === "FAIL";
  const properties = { className: `${result.status} cell`, title: isFail ? result.finding : "" };
  const cell = make("td", properties, isFail ? String(result.number) : say(result.status));
  cell.onclick = () => openOne(job, key);
  return cell;
}

/**
 * The sentence without the name of the job, which stands before it.
 * @param {Job} job
 * @param {Result} result
 */
function toldOf(job, { status, sentence }) {
  if (status === "WAITING" || status === "STOPPED") return "";
  return sentence.startsWith(`${job.name}: `) ? sentence.slice(job.name.length + 2) : sentence;
}

// Gives the focus to the row of a job.
/** @param {Job} job */
export function focusRow(job) {
  rows.get(job)?.querySelector("button")?.focus();
}

// ---- filters

/** @param {Job} job */
function statusOf(job) {
  const { status } = resultOf(job, TOGETHER);
  return status === "PASS" || status === "FAIL" ? status : "OTHER";
}

/** The jobs that the filters leave. */
export function shownJobs() {
  const status = find("select", "status").value;
  const words = find("input", "words").value.toLowerCase();
  return state.jobs.filter((job) => {
    const told = `${job.name} ${resultOf(job, TOGETHER).sentence}`.toLowerCase();
    return (status === "All" || statusOf(job) === status) && told.includes(words);
  });
}

function filter() {
  const shown = new Set(shownJobs());
  for (const [job, row] of rows) row.hidden = !shown.has(job);
  byId("none-left").hidden = shown.size > 0 || state.jobs.length === 0;
}

// ---- progress

function counts() {
  const all = state.jobs.flatMap((job) => [...job.results.values()].map(({ status }) => status));
  const waiting = all.filter((status) => status === "WAITING").length;
  const stopped = all.filter((status) => status === "STOPPED").length;
  return { all: all.length, waiting, stopped, done: all.length - waiting - stopped };
}

/** Shows how far the checks are; a screen reader tells the end alone. */
function showProgress() {
  const { all, waiting, stopped, done } = counts();
  const bar = find("progress", "progress");
  [bar.max, bar.value] = [Math.max(1, all), done];
  byId("stop").hidden = waiting + stopped === 0;
  byId("stop").textContent = say(waiting > 0 ? "stop" : "goOn");
  const percent = Math.floor(100 * reading.share);
  const values = { done, all, percent, name: reading.name };
  const going = say(percent < 100 ? "progressRead" : "progress", values);
  const whole = all === 1 ? "progressDoneOne" : "progressDone";
  const ended = say(stopped > 0 ? "progressStopped" : whole, { done, all });
  byId("progress-told").textContent = waiting > 0 ? going : "";
  byId("told").textContent = waiting > 0 || all === 0 ? "" : ended;
  if (printers().length === 0) byId("told").textContent = say("printersNone");
  for (const option of find("select", "status").options) {
    const status = /** @type {typeof STATUSES[number]} */ (option.value);
    const n = state.jobs.filter((job) => status === "All" || statusOf(job) === status).length;
    option.textContent = say(`filter${status}`, { n });
  }
}

/**
 * Shows how much of a large job is read.
 * @param {number} share
 * @param {string} name
 */
export function showReading(share, name) {
  if (share === reading.share) return;
  reading = { share, name };
  showProgress();
}
