/**
 * Tries without a browser what the page does with answers and files that are not as they should
 * be: an answer that comes for a task that was given up, and a job that is longer or shorter than
 * its file said.
 *
 *     node web/try_tasks.mjs
 *
 * What differs is printed, and then the status is 1.
 */

let [count, differences] = [0, 0];

/**
 * @param {string} what
 * @param {unknown} due
 * @param {unknown} came
 */
function compare(what, due, came) {
  count += 1;
  if (JSON.stringify(due) === JSON.stringify(came)) return;
  differences += 1;
  console.log(`${what}: due ${JSON.stringify(due)}, has ${JSON.stringify(came)}`);
}

/** Workers that answer when they are told to. */
class Worker {
  /** @type {Worker[]} */
  static made = [];
  /** @type {any[]} */
  heard = [];

  constructor() {
    Worker.made.push(this);
  }

  /** @param {any} data */
  postMessage(data) {
    if (data.call) this.heard.push(data);
  }

  terminate() {}
}

const EMPTY_MODULE = Uint8Array.of(0, 97, 115, 109, 1, 0, 0, 0);
const text = { textContent: Buffer.from(EMPTY_MODULE).toString("base64") };
Object.assign(globalThis, { Worker, document: { getElementById: () => text }, self: globalThis });
Object.defineProperty(globalThis, "navigator", { value: { hardwareConcurrency: 2 } });
const { ask, stopChecks } = await import("./checker.js");

/** @param {number} id */
const jobOf = (id) => ({ id, file: new Blob(["x"]) });
const how = { isCheck: true, printers: 1 };
const first = ask("check", [[], "first"], jobOf(1), how).catch(({ name }) => name);
const old = Worker.made.find(({ heard }) => heard.length > 0);
const [given] = old?.heard ?? [];
stopChecks();
const second = ask("check", [[], "second"], jobOf(2), how);
old?.onmessage({ data: { ...given, value: "PASS of the first" } });
old?.onerror();
const [asked] = Worker.made.at(-1)?.heard ?? [];
Worker.made.at(-1)?.onmessage({ data: { ...asked, value: "FAIL of the second" } });
compare("a task that was stopped", "Stopped", await first);
compare("the answer of the task before", "FAIL of the second", await second);

/** @type {any[]} */
const said = [];
Object.assign(globalThis, { postMessage: (/** @type {any} */ data) => said.push(data) });
await import("./worker.js");

/**
 * What a worker answers on a file that says it has so many bytes, and has others.
 * @param {number} size
 * @param {string} bytes
 */
async function answerOn(size, bytes) {
  const file = { size, stream: () => new Blob([bytes]).stream() };
  const job = { id: size + 1, file };
  await globalThis.onmessage({ data: { number: 7, call: "none", given: [], job } });
  return said.pop();
}
const changed = "the file has changed since it was chosen";
for (const [size, bytes] of [[3, "xx"], [1, "xx"], [0, "xx"]]) {
  const { number, failure } = await answerOn(Number(size), String(bytes));
  compare(`a job of ${bytes.length} bytes for ${size}`, [7, changed], [number, failure.message]);
}
const { failure } = await answerOn(2, "xx");
compare("a job as it is", "CALLS[call] is not a function", failure.message);
console.log(`tasks: ${count} compared, ${differences} differ`);
process.exit(differences ? 1 : 0);
