// @ts-check
/**
 * Compares the built module with the program, over all examples and their four profiles.
 *
 *     node web/try_module.mjs PROGRAM MODULE
 *
 * What differs is printed, and then the status is 1.
 */

import { execFileSync, spawnSync } from "node:child_process";
import { mkdtempSync, readFileSync, readdirSync, rmSync } from "node:fs";
import { tmpdir } from "node:os";
import { dirname, join, resolve } from "node:path";
import { fileURLToPath } from "node:url";
import { setFlagsFromString } from "node:v8";

import { Failure, open } from "./module.js";

const EXAMPLES = join(dirname(fileURLToPath(import.meta.url)), "..", "examples");
const PROFILES = ["front_desk", "back_office", "export_desk", "dispatch"];
const CODES = ["", "12", "Unset", "102", "&lP", "HT", "commands", "nothing", "items", "12 Unset(Size)",
  "Unset(Size)", "&f0S", "ESC &l66p", "\\x1b&f0S", "(s0p", "(8U", "*b2m", "  "];
/** A listed item is near a place where it begins so many bytes before or behind. */
const [BEFORE, BEHIND] = [40, 16];

// Memories of 64 bits, which Node 20 has behind this flag.
setFlagsFromString("--experimental-wasm-memory64");

const [program, file] = process.argv.slice(2).map((path) => resolve(path));
const module = await open(readFileSync(file));
const folder = mkdtempSync(join(tmpdir(), "pclcheck-module-"));
let [count, differences] = [0, 0];

/**
 * What the program writes on standard output.
 * @param {string[]} words
 */
function told(...words) {
  const limit = { cwd: EXAMPLES, maxBuffer: 1 << 30 };
  return spawnSync(program, words, limit).stdout;
}

/**
 * @param {string} what
 * @param {string | Uint8Array} due
 * @param {string | Uint8Array} came
 */
function compare(what, due, came) {
  count += 1;
  if (Buffer.from(due).equals(Buffer.from(came))) {
    return;
  }
  differences += 1;
  console.log(`${what}: due ${String(due).slice(0, 300)}\n  has ${String(came).slice(0, 300)}`);
}

/**
 * A text of the module, or nothing where it has none for this cause.
 * @param {string} cause
 * @param {() => string} text
 */
function unless(cause, text) {
  try {
    return text();
  } catch (failure) {
    if (failure instanceof Failure && failure.name === cause) {
      return "";
    }
    throw failure;
  }
}

/** @param {string} name */
const bytesOf = (name) => new Uint8Array(readFileSync(join(EXAMPLES, name)));

/**
 * The members of an object that the program writes on a job, as a verdict has them.
 * @param {import("./module.js").Verdict} verdict
 */
function members(verdict) {
  if (verdict.status === "PASS") {
    return { verdict: "PASS", pages: verdict.pages, marks: verdict.marks };
  }
  const { place, number, kind, page, printer, millimetres } = verdict;
  const told = { verdict: "FAIL", at: place, code: number, kind, page, profile: printer };
  return millimetres === null ? told : { ...told, x_mm: millimetres.x, y_mm: millimetres.y };
}

/**
 * @param {string} what
 * @param {string[]} words
 * @param {import("./module.js").Verdict} verdict
 */
function compareVerdict(what, words, verdict) {
  compare(`${what}, sentence`, told("check", "--format", "words", ...words), `${verdict.sentence}\n`);
  const due = JSON.parse(told("check", "--format", "json", ...words).toString());
  const came = members(verdict);
  const same = Object.fromEntries(Object.keys(came).map((key) => [key, due[key]]));
  compare(`${what}, object`, JSON.stringify(same), JSON.stringify(came));
  const isPlaced = due.x_mm !== undefined;
  compare(`${what}, place`, String(isPlaced), String(verdict.millimetres !== null));
}

/**
 * @param {string} name
 * @param {Uint8Array} job
 * @param {number} place
 */
function compareList(name, job, place) {
  const due = told("list", name).toString().split("\n");
  const near = due.filter((line) => {
    const at = Number(line.split(" ")[0]);
    return /^\d+ (?!FAULT )/.test(line) && place - BEFORE <= at && at - BEHIND <= place;
  });
  const came = module.listAround(job, place).map((it) => `${it.place} ${it.spelling}`);
  compare(`${name}, items near ${place}`, near.join("\n"), came.join("\n"));
}

/**
 * @param {string} name
 * @param {Uint8Array} job
 * @param {string} profile
 */
function comparePages(name, job, profile) {
  const text = bytesOf(profile);
  const what = `${name} on ${profile}`;
  const pages = module.pageCount(text, job);
  for (let page = 0; page <= pages + 1; page++) {
    const words = page === 0 ? ["--all"] : ["--page", String(page)];
    const due = told("picture", name, profile, ...words);
    compare(`${what}, page ${page}`, due, unless("NoPage", () => module.picture(text, job, page, name)));
    compare(`${what}, is there a page ${page}`, String(due.length !== 0), String(page <= pages));
  }
}

/**
 * @param {string} name
 * @param {Uint8Array} job
 */
function compareJob(name, job) {
  const texts = PROFILES.map((profile) => `${profile}.profile`);
  const profiles = texts.map(bytesOf);
  const verdict = module.check(profiles, job, name);
  compareVerdict(name, [...texts.flatMap((text) => ["-p", text]), name], verdict);
  compareList(name, job, verdict.place);
  const out = join(folder, "out");
  told("plain", name, out);
  compare(`${name}, plain`, readFileSync(out), module.plain(job).bytes);
  for (const [index, text] of texts.entries()) {
    const what = `${name} on ${text}`;
    const [each] = module.checkEach([profiles[index]], job, name);
    compareVerdict(`${what} by itself`, ["--each", "-p", text, name], each);
    compare(`${what}, notes`, told("notes", name, text), module.notes(profiles[index], job).text);
    told("pin", name, text, out);
    compare(`${what}, pinned`, readFileSync(out), module.pin(job, profiles[index]).bytes);
    comparePages(name, job, text);
  }
}

function compareProfiles() {
  compare("models", told("profile", "list"), module.models()
    .map(({ name, title, papers }) => `${name}: ${title}; papers: ${papers.join(" ")}\n`).join(""));
  for (const { name } of module.models()) {
    const due = told("profile", "new", name);
    compare(`profile of ${name}`, due, module.newProfile(name));
    compare(`refusal of ${name}`, "null", JSON.stringify(module.refusal(new Uint8Array(due))));
  }
  compare("no model", "", unless("Unknown", () => module.newProfile("nothing")));
  for (const name of readdirSync(EXAMPLES).filter((it) => /\.(profile|pcl)$/.test(it))) {
    const { text, hasFaults } = module.lint(bytesOf(name), name);
    compare(`faults of ${name}`, told("profile", "lint", name), text);
    const refusal = module.refusal(bytesOf(name));
    compare(`refusal of ${name}`, String(hasFaults), String(refusal !== null));
  }
}

try {
  const version = execFileSync(program, ["--version"]).toString().trim().split(" ")[1];
  compare("version", version, module.version());
  for (const code of CODES) {
    const words = code === "" ? [] : [code];
    compare(`explain ${code}`, told("explain", ...words), unless("Unknown", () => module.explain(code)));
  }
  compareProfiles();
  for (const name of readdirSync(EXAMPLES).filter((it) => it.endsWith(".pcl"))) {
    compareJob(name, bytesOf(name));
  }
} finally {
  rmSync(folder, { recursive: true });
}
console.log(`module: ${count} texts and verdicts compared with the program, ${differences} differ`);
process.exitCode = differences === 0 ? 0 : 1;
