// @ts-check
/** What the page knows: printers, jobs, and what came of each check. */
import { MOST_BYTES, ask, stopChecks } from "./checker.js";
import { whyOf } from "./dom.js";
import { say } from "./texts.js";

/** @typedef {import("./module.js").Verdict} Verdict */
/** @typedef {{ status: "WAITING" | "STOPPED" | "ERROR", sentence: string }} Untold */
/** @typedef {Verdict | Untold} Result */
/** @typedef {{ name: string, title: string, papers: string[], text: string }} Model */
/**
 * A printer: of a model, or of the text of a profile that was given.
 * @typedef {{ key: string, name: string, text: string, profile: Uint8Array }} Printer
 */
/**
 * A text of a profile that was given: its name and file, and what is wrong with it.
 * @typedef {object} Own
 * @property {string} key
 * @property {string} name
 * @property {string} file
 * @property {string} text
 * @property {string} fault
 * @property {string} hints
 * @property {boolean} isChosen
 */
/** @typedef {{ id: number, name: string, file: Blob, results: Map<string, Result> }} Job */

/** The key of what came of a job for all printers together. */
export const TOGETHER = "";
const KEPT = "pclcheck";
const PROFILE_START = "pclprofile";
/** Of a longer file enough is read for the library to refuse it: 65,536 bytes are allowed. */
const ENOUGH_OF_PROFILE = 65536 + 16;

export const state = {
  version: "",
  /** @type {Model[]} */
  models: [],
  /** @type {Set<string>} */
  chosenModels: new Set(["generic"]),
  /** The sizes in the printers of models, the usual one first. */
  paper: "2",
  /** @type {Own[]} */
  own: [],
  /** @type {Job[]} */
  jobs: [],
  keeps: true,
};

/** How long changes are gathered before they are shown, in milliseconds. */
const PAUSE = 20;
/** @type {Set<Job | null>} */
const changes = new Set();
/** @type {(jobs: Set<Job> | null) => void} */
let tellChanges = () => {};
let count = 0;

// Hears which jobs have changed, or that all has.
/** @param {(jobs: Set<Job> | null) => void} tell */
export function onChange(tell) {
  tellChanges = tell;
}

/** @param {Job | null} job */
function changed(job) {
  if (changes.size === 0) setTimeout(showChanges, PAUSE);
  changes.add(job);
}

function showChanges() {
  const jobs = changes.has(null) ? null : /** @type {Set<Job>} */ (new Set(changes));
  changes.clear();
  tellChanges(jobs);
}

// ---- printers

/** @type {Printer[]} */
let chosen = [];

/** The printers that are chosen, those of models first. */
export function printers() {
  return chosen;
}

function gatherPrinters() {
  const ofModels = state.models
    .filter(({ name }) => state.chosenModels.has(name))
    .map(({ name, text }) => {
      const sized = text.replace(/^size .*$/m, `size ${state.paper}`);
      return { key: `model ${name}`, name, text: sized };
    });
  const ofFiles = state.own.filter(({ isChosen }) => isChosen);
  chosen = [...ofModels, ...ofFiles].map(({ key, name, text }) => {
    return { key, name, text, profile: new TextEncoder().encode(text) };
  });
}

/** Takes up what was kept when this page was last open. */
export async function recall() {
  try {
    const { models, paper, own } = JSON.parse(localStorage.getItem(KEPT) ?? "{}");
    if (Array.isArray(models)) state.chosenModels = new Set(models.map(String));
    if (/^\d+( \d+)*$/.test(paper)) state.paper = paper;
    for (const { file, text, isChosen } of own ?? []) {
      await addProfile(String(file), String(text), Boolean(isChosen));
    }
  } catch {
    state.keeps = false;
  }
  gatherPrinters();
}

function keep() {
  try {
    const own = state.own.map(({ file, text, isChosen }) => ({ file, text, isChosen }));
    const models = [...state.chosenModels];
    localStorage.setItem(KEPT, JSON.stringify({ models, paper: state.paper, own }));
    state.keeps = true;
  } catch {
    state.keeps = false;
  }
}

/** Checks all jobs anew, as the printers have changed. */
export function changePrinters() {
  keep();
  gatherPrinters();
  stopChecks();
  for (const job of state.jobs) job.results = new Map();
  changed(null);
  checkAll();
}

/**
 * Adds the text of a profile; one of the same file takes the place of the first.
 * @param {string} file
 * @param {string} text
 * @param {boolean} [isChosen]
 */
async function addProfile(file, text, isChosen = true) {
  const profile = new TextEncoder().encode(text);
  const told = await ask("lint", [profile, file]).catch((error) => {
    return { hasFaults: true, text: whyOf(error), name: "" };
  });
  const [fault, hints] = told.hasFaults ? [told.text, ""] : ["", told.text];
  const one = { key: `file ${file}`, name: told.name || file, file, text, fault, hints };
  const own = { ...one, isChosen: isChosen && !fault };
  state.own = [...state.own.filter(({ key }) => key !== own.key), own];
}

// ---- jobs

// Adds files: profiles to the printers, others to the jobs.
/** @param {Iterable<File>} files */
export async function addFiles(files) {
  let isProfile = false;
  for (const file of files) {
    if ((await startOf(file)) === PROFILE_START) {
      await addProfile(file.name, await file.slice(0, ENOUGH_OF_PROFILE).text());
      isProfile = true;
    } else {
      state.jobs.push({ id: ++count, name: file.name, file, results: new Map() });
    }
  }
  if (isProfile) changePrinters();
  else {
    changed(null);
    checkAll();
  }
}

/** @param {File} file */
async function startOf(file) {
  try {
    return await file.slice(0, PROFILE_START.length).text();
  } catch {
    return ""; // The check tells that it cannot be read.
  }
}

/** Removes all jobs. */
export function clearJobs() {
  stopChecks();
  state.jobs = [];
  changed(null);
}

/** Starts each check that has not come to an end. */
export function checkAll() {
  if (chosen.length === 0) return;
  for (const job of state.jobs) {
    const results = [...job.results.values()];
    const isStopped = results.some(({ status }) => status === "STOPPED");
    if (isStopped || results.length === 0) check(job);
  }
}

// Checks a job for all printers together, and where it fails for each.
/** @param {Job} job */
async function check(job) {
  const fleet = printers();
  const results = new Map();
  job.results = results;
  const keys = fleet.length === 1 ? [TOGETHER] : [TOGETHER, ...fleet.map(({ key }) => key)];
  for (const key of keys) results.set(key, { status: "WAITING", sentence: say("waitingTold") });
  changed(job);
  const together = await verdict(job, fleet, true);
  results.set(TOGETHER, together);
  if (fleet.length > 1) await checkEach(job, fleet, together, results);
  if (job.results === results) changed(job);
}

/**
 * @param {Job} job
 * @param {Printer[]} fleet
 * @param {Result} together
 * @param {Map<string, Result>} results
 */
async function checkEach(job, fleet, together, results) {
  // What passes for all passes for each, and what was stopped or is too long stays so.
  if (together.status !== "FAIL") {
    for (const { key } of fleet) results.set(key, { ...together });
    return;
  }
  changed(job);
  await Promise.all(
    fleet.map(async (printer) => {
      results.set(printer.key, await verdict(job, [printer], true));
      if (job.results === results) changed(job);
    }),
  );
}

/**
 * What a check of a job says, or why there is no verdict.
 * @param {Job} job
 * @param {Printer[]} fleet
 * @param {boolean} [isCheck]
 * @returns {Promise<Result>}
 */
export async function verdict(job, fleet, isCheck = false) {
  const [size, most] = [job.file.size, MOST_BYTES].map((it) => Math.ceil(it / (1 << 20)));
  if (size > most) return { status: "ERROR", sentence: say("tooLong", { size, most }) };
  const profiles = fleet.map(({ profile }) => profile);
  try {
    return await ask("check", [profiles, job.name], job, { isCheck, printers: fleet.length });
  } catch (error) {
    if (error instanceof Error && error.name === "Stopped") {
      return { status: "STOPPED", sentence: say("stoppedTold") };
    }
    return { status: "ERROR", sentence: say("errorTold", { why: whyOf(error) }) };
  }
}

/**
 * What came of a job, or that nothing did yet.
 * @param {Job} job
 * @param {string} key
 * @returns {Result}
 */
export function resultOf(job, key) {
  return job.results.get(key) ?? { status: "WAITING", sentence: say("waitingTold") };
}
