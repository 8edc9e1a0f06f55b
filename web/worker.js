// @ts-check
import { Module } from "./module.js";
import { marksOf } from "./marks.js";

/**
 * What the page asks: a call, what it is given, and the job of which it is. The answer has its
 * number.
 * @typedef {object} Question
 * @property {number} number
 * @property {string} call
 * @property {any[]} given
 * @property {{ id: number, file: Blob } | null} job
 */

const PROGRESS_STEP = 4 << 20;
const MOST_PICTURE = 8 << 20;
const CHANGED = "the file has changed since it was chosen";

/** @type {Module} */
let checker;
/** The bytes of the job of the last call. */
let held = { id: 0, bytes: new Uint8Array() };

/** @type {{ [call: string]: (job: Uint8Array, ...given: any[]) => unknown }} */
const CALLS = {
  shelf: () => ({
    version: checker.version(),
    models: checker.models().map((model) => ({ ...model, text: checker.newProfile(model.name) })),
  }),
  lint: (_, profile, name) => {
    const { hasFaults, text } = checker.lint(profile, name);
    return { hasFaults, text, name: hasFaults ? "" : checker.printerName(profile) };
  },
  check: (job, profiles, name) => checker.check(profiles, job, name),
  explain: (_, code) => checker.explain(code),
  listAround: (job, place) => checker.listAround(job, place),
  notes: (job, profile) => checker.notes(profile, job),
  pageCount: (job, profile) => checker.pageCount(profile, job),
  pin: (job, profile, panel) => checker.pin(job, profile, panel),
  plain: (job) => checker.plain(job),
  picture: (job, profile, page, name) => {
    const svg = checker.picture(profile, job, page, name);
    const isBig = svg.length > MOST_PICTURE;
    const image = new Blob([svg], { type: "image/svg+xml" });
    return { image, isBig, ...marksOf(isBig ? "" : svg) };
  },
};

// The bytes of a job, read once for calls that follow each other: as many as the file has.
/**
 * @param {Question["job"]} job
 * @param {number} number
 */
async function readJob(job, number) {
  if (!job) return new Uint8Array();
  if (held.id === job.id) return held.bytes;
  held = { id: 0, bytes: new Uint8Array() };
  const bytes = new Uint8Array(job.file.size);
  const reader = job.file.stream().getReader();
  let [at, told] = [0, 0];
  for (;;) {
    const { done, value } = await reader.read();
    if (done) break;
    if (value.length > bytes.length - at) throw new Error(CHANGED);
    bytes.set(value, at);
    at += value.length;
    if (at - told > PROGRESS_STEP) postMessage({ number, read: (told = at) });
  }
  if (at !== bytes.length) throw new Error(CHANGED);
  held = { id: job.id, bytes };
  return bytes;
}

/** @param {MessageEvent<Question & { module?: WebAssembly.Module }>} event */
self.onmessage = async ({ data: { module, number, call, given, job } }) => {
  if (module) {
    checker = new Module(module);
    return;
  }
  try {
    const bytes = await readJob(job, number);
    postMessage({ number, value: CALLS[call](bytes, ...given) });
  } catch (error) {
    const { name, message } = error instanceof Error ? error : new Error(String(error));
    postMessage({ number, failure: { name, message } });
  }
};
