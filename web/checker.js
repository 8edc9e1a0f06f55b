// @ts-check
/**
 * Asks workers. Some check, each one job at a time; one more serves what is looked at, so that it
 * waits for no check. A call that takes too long ends with its worker.
 */
import { say } from "./texts.js";
import { byId } from "./dom.js";

/** The largest job that is taken, in bytes: it lies in memory more than once. */
export const MOST_BYTES = 512 << 20;

/** Jobs that are larger go through one worker alone, so that memory holds few of them. */
const BIG = 64 << 20;
const SECONDS = 30;
const SECONDS_PER_MEGABYTE = 0.2;

/**
 * @typedef {object} Task
 * @property {import("./worker.js").Question} question
 * @property {boolean} isLook whether it is of what is looked at, and no check
 * @property {number} seconds how long it may take
 * @property {(value: any) => void} resolve
 * @property {(error: Error) => void} reject
 */

/** @type {Task[]} */
let waiting = [];
let asked = 0;
/** @type {(share: number, name: string) => void} */
let tellReading = () => {};

const module = WebAssembly.compile(packedBytes("module"));
const source = URL.createObjectURL(
  new Blob([byId("worker").textContent ?? ""], { type: "text/javascript" }),
);

// Bytes that the page has in it.
/** @param {string} id */
function packedBytes(id) {
  return Uint8Array.from(atob((byId(id).textContent ?? "").trim()), (it) => it.charCodeAt(0));
}

/**
 * An error with a name.
 * @param {string} name
 * @param {string} message
 */
function errorNamed(name, message) {
  return Object.assign(new Error(message), { name });
}

/** A worker, made when it is first needed, and its task. */
class Lane {
  /**
   * @param {boolean} isLook
   * @param {boolean} takesBig
   */
  constructor(isLook, takesBig) {
    this.isLook = isLook;
    this.takesBig = takesBig;
    /** @type {Worker | null} */
    this.worker = null;
    /** @type {Task | null} */
    this.task = null;
    this.timer = 0;
  }

  /** Takes the first task that waits for such a worker. */
  next() {
    const at = waiting.findIndex(
      ({ isLook, question: { job } }) =>
        isLook === this.isLook && (this.takesBig || !job || job.file.size <= BIG),
    );
    if (this.task || at < 0) return;
    [this.task] = waiting.splice(at, 1);
    const { question, seconds } = this.task;
    this.ready().postMessage(question);
    const told = say("timedOut", { seconds: Math.round(seconds) });
    this.timer = setTimeout(() => this.end(errorNamed("TimedOut", told)), seconds * 1000);
  }

  ready() {
    if (this.worker) return this.worker;
    const worker = new Worker(source);
    worker.onmessage = ({ data }) => this.hear(data);
    worker.onerror = () => {
      if (this.worker === worker) this.end(errorNamed("Died", say("workerDied")));
    };
    worker.postMessage({ module: compiled });
    this.worker = worker;
    return worker;
  }

  /**
   * Takes what a worker says of its task; of one that was given up it may still come.
   * @typedef {{ name: string, message: string }} Failure
   * @param {{ number: number, read?: number, value?: any, failure?: Failure }} data
   */
  hear({ number, read, value, failure }) {
    if (this.task?.question.number !== number) return;
    const { question, resolve, reject } = this.task;
    if (read) {
      tellReading(read / (question.job?.file.size ?? read), question.given.at(-1));
      return;
    }
    this.leave();
    if (failure) reject(errorNamed(failure.name, failure.message));
    else resolve(value);
    this.next();
  }

  leave() {
    clearTimeout(this.timer);
    this.task = null;
    tellReading(1, "");
  }

  /**
   * Ends the worker with its task.
   * @param {Error} error
   */
  end(error) {
    const task = this.task;
    this.worker?.terminate();
    this.worker = null;
    this.leave();
    task?.reject(error);
    this.next();
  }
}

/** @type {WebAssembly.Module} */
let compiled;
const checkers = Math.max(1, Math.min(4, (navigator.hardwareConcurrency || 2) - 1));
const lanes = [new Lane(true, true)];
for (let i = 0; i < checkers; i++) lanes.push(new Lane(false, i === 0));

/** Makes ready what the first calls need. */
export async function start() {
  compiled = await module;
  for (const lane of lanes.slice(0, 2)) lane.ready();
}

// Tells how much of a large job is read.
/** @param {(share: number, name: string) => void} tell */
export function onReading(tell) {
  tellReading = tell;
}

/**
 * Asks for a call on a job, or on none.
 * @param {string} call
 * @param {any[]} given
 * @param {{ id: number, file: Blob } | null} [job]
 * @param {{ isCheck: boolean, printers: number }} how
 * @returns {Promise<any>}
 */
export function ask(call, given, job = null, how = { isCheck: false, printers: 1 }) {
  const megabytes = (job?.file.size ?? 0) / (1 << 20);
  const seconds = SECONDS + SECONDS_PER_MEGABYTE * megabytes * how.printers;
  const question = { number: ++asked, call, given, job: job && { id: job.id, file: job.file } };
  return new Promise((resolve, reject) => {
    waiting.push({ question, isLook: !how.isCheck, seconds, resolve, reject });
    for (const lane of lanes) lane.next();
  });
}

/** Stops all checks, at once. */
export function stopChecks() {
  const stopped = errorNamed("Stopped", say("stoppedTold"));
  const left = waiting.filter((task) => !task.isLook);
  waiting = waiting.filter((task) => task.isLook);
  for (const task of left) task.reject(stopped);
  for (const lane of lanes) if (!lane.isLook && lane.task) lane.end(stopped);
}
