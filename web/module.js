// @ts-check
/**
 * pclcheck in a page: its calls by texts and bytes.
 *
 * Nothing is kept between calls. They are synchronous and may take seconds, so make them in a
 * worker. What a call cannot do it throws as a `Failure`.
 */

import { DONE, makeCall } from "./calls.js";

/** @typedef {import("./calls.js").Answer} Answer */
/** @typedef {import("./calls.js").Given} Given */

/**
 * What is wrong with the text of a profile, and the line that is wrong, from 1; 0 for the text as
 * a whole.
 * @typedef {{ line: number, cause: string }} Refusal
 */

/**
 * What is told of a job.
 * @typedef {object} Verdict
 * @property {"PASS" | "FAIL"} status
 * @property {number} pages of a job that passes the number of its pages, else 0
 * @property {number} marks of a job that passes the number of its marks, else 0
 * @property {number} place where the job fails, in bytes from its start
 * @property {number} printer the number of the printer for which it fails, from 1; 0 for its bytes
 * @property {string} printerName the name of that printer, by its profile
 * @property {number} number the number of the fault or finding, as `explain` takes it; 0 of a PASS
 * @property {string} finding number and name, as `12 Unset(Size)`; empty of a PASS
 * @property {string} kind who says no: wrong, printer, panel, differs or unchecked; empty of a PASS
 * @property {number} page the page on which the job fails, from 1; 0 of a PASS
 * @property {{ x: string, y: string } | null} millimetres where the cursor stood, from the left and
 *   the upper edge of the sheet
 * @property {string} sentence what `check --format words` writes, without its line end
 */

/**
 * Whether a job was gone through to its end, or where it ends, and by which fault or finding.
 * @typedef {object} Outcome
 * @property {"PASS" | "FAIL"} status
 * @property {number} place
 * @property {number} printer
 * @property {number} number
 */

/** @typedef {{ place: number, number: number, name: string }} Note */
/** @typedef {Outcome & { text: string, notes: Note[] }} Notes */
/** @typedef {Outcome & { bytes: Uint8Array }} Written */
/** @typedef {{ place: number, spelling: string }} Listed */
/** @typedef {{ name: string, title: string, papers: string[] }} Model */
/** @typedef {{ hasFaults: boolean, text: string }} Lint */

/**
 * Values of fields of a panel, by the names that profiles have: size, orientation, vmi (in
 * ten-thousandths of 1/48 inch), font, copies, sides, tray, lineterm.
 * @typedef {{ [field: string]: number }} Panel
 */

/** Why a call hands out nothing. */
export class Failure extends Error {
  /**
   * @param {string} name Memory, Long, NoPrinter, Stopped, Refused, NotAllowed, NoField, NoPage,
   *   Unknown or Items
   * @param {string} message
   * @param {{ printer: number, line: number, cause: string } | null} refused the profile that is
   *   refused, by its number from 1
   */
  constructor(name, message, refused) {
    super(message);
    this.name = name;
    this.refused = refused;
  }
}

const REFUSED = 6;

/** @type {[string, string][]} */
const FAILURES = [
  ["Memory", "there is not enough memory"],
  ["Long", "the job is too long"],
  ["NoPrinter", "there is no printer"],
  ["Stopped", "work stopped"],
  ["Refused", "the text is no profile"],
  ["NotAllowed", "the panel of the printer may not have a value that is chosen"],
  ["NoField", "a value is chosen for what is no field of the panel"],
  ["NoPage", "the job does not have this page"],
  ["Unknown", "nothing has this name"],
  // No text of a profile limits the items of macros, so this does not come.
  ["Items", "macros carry out too many items"],
];

const CAUSES = ["", "Version", "Unknown", "Repeated", "Range", "Missing", "NoGeometry"];
const KINDS = ["", "unchecked", "wrong", "printer", "panel", "differs"];
const FIELDS = ["size", "orientation", "vmi", "font", "copies", "sides", "tray", "lineterm"];

/** The numbers of rows, by their bytes. */
const REFUSAL = [8, 8, 4];
const VERDICT = [8, 8, 8, 8, 8, 4];
const JUDGEMENT = [8, 8, 8, 8, 8, -8, -8, 4, 4, 4];
const COUNT = [8];

/** An inch has 36,576,000,000 ticks. */
const TICKS_OF_HUNDREDTH = 36576000000 / 2540;

const ENCODER = new TextEncoder();
const DECODER = new TextDecoder();

/**
 * The module of these bytes.
 * @param {BufferSource} bytes
 */
export async function open(bytes) {
  return new Module(await WebAssembly.compile(bytes));
}

/**
 * @param {Answer} answer
 * @returns {Failure}
 */
function failureOf({ number, rows }) {
  const [name, message] = FAILURES[number - 2];
  if (number !== REFUSED) {
    return new Failure(name, message, null);
  }
  const [printer, line, cause] = rows[0];
  return new Failure(name, message, { printer, line, cause: CAUSES[cause] });
}

/**
 * Profiles as one text, with the length of each.
 * @param {Uint8Array[]} profiles
 * @returns {Given[]}
 */
function joined(profiles) {
  const lengths = BigUint64Array.from(profiles, (profile) => BigInt(profile.length));
  const text = new Uint8Array(profiles.reduce((sum, profile) => sum + profile.length, 0));
  let at = 0;
  for (const profile of profiles) {
    text.set(profile, at);
    at += profile.length;
  }
  return [text, { array: new Uint8Array(lengths.buffer), count: profiles.length }];
}

/**
 * @param {number[]} row
 * @returns {Outcome}
 */
function outcomeOf([, , place, printer, , number]) {
  return { status: number === 0 ? "PASS" : "FAIL", place, printer, number };
}

/**
 * The number and the name at the end of a sentence on a job that fails.
 * @param {string} sentence
 */
function findingOf(sentence) {
  const found = /\((\d+ \w+(?:\([^ ]*\))?)\)$/.exec(sentence);
  return found === null ? "" : found[1];
}

/**
 * Ticks in millimetres, rounded down to hundredths.
 * @param {number} ticks
 */
const millimetres = (ticks) => (Math.floor(ticks / TICKS_OF_HUNDREDTH) / 100).toFixed(2);

/** @param {string} text */
const linesOf = (text) => text.split("\n").filter((line) => line !== "");

/** pclcheck, with the calls of a page. */
export class Module {
  /** @param {WebAssembly.Module} module */
  constructor(module) {
    this.module = module;
  }

  /**
   * Makes a call that works and has a text.
   * @param {string} name
   * @param {Given[]} given
   * @param {number[][]} rows
   */
  make(name, given, ...rows) {
    const answer = makeCall(this.module, { name, given, rows, works: true, hasText: true });
    if (answer.number !== DONE) {
      throw failureOf(answer);
    }
    return { rows: answer.rows, bytes: answer.bytes, text: DECODER.decode(answer.bytes) };
  }

  /**
   * A text that needs no work.
   * @param {string} name
   * @param {Given[]} given
   */
  plainText(name, given) {
    const call = { name, given, rows: [], works: false, hasText: true };
    const answer = makeCall(this.module, call);
    return DECODER.decode(answer.bytes);
  }

  /** The version, as `pclcheck --version` has it behind the name. */
  version() {
    return this.plainText("web_version", []);
  }

  /**
   * The name that the text of a profile gives its printer.
   * @param {Uint8Array} profile
   */
  printerName(profile) {
    return this.plainText("web_printer_name", [profile]);
  }

  /**
   * What is wrong with the text of a profile, or nothing.
   * @param {Uint8Array} profile
   * @returns {Refusal | null}
   */
  refusal(profile) {
    const [name, given, rows] = ["web_refusal", [profile], [REFUSAL]];
    const answer = makeCall(this.module, { name, given, rows, works: true, hasText: false });
    if (answer.number === DONE) {
      return null;
    }
    const failure = failureOf(answer);
    if (failure.refused === null) {
      throw failure;
    }
    return { line: failure.refused.line, cause: failure.refused.cause };
  }

  /**
   * Checks a job for all printers together, as `pclcheck check`. The sentence has this name of it.
   * @param {Uint8Array[]} profiles
   * @param {Uint8Array} job
   * @param {string} [name]
   * @returns {Verdict}
   */
  check(profiles, job, name = "job") {
    return this.judge(profiles, job, name, false);
  }

  /**
   * @param {Uint8Array[]} profiles
   * @param {Uint8Array} job
   * @param {string} name
   * @param {boolean} isEach
   * @returns {Verdict}
   */
  judge(profiles, job, name, isEach) {
    const given = [...joined(profiles), isEach, ENCODER.encode(name), job];
    const { rows, text } = this.make("web_check", given, REFUSAL, JUDGEMENT);
    const [pages, marks, place, printer, page, x, y, number, kind, isPlaced] = rows[1];
    const sentence = text.replace(/\n$/, "");
    return {
      status: number === 0 ? "PASS" : "FAIL",
      pages,
      marks,
      place,
      printer,
      printerName: printer === 0 ? "" : this.printerName(profiles[printer - 1]),
      number,
      finding: number === 0 ? "" : findingOf(sentence),
      kind: KINDS[kind],
      page,
      millimetres: isPlaced === 0 ? null : { x: millimetres(x), y: millimetres(y) },
      sentence,
    };
  }

  /**
   * Checks a job for each printer by itself, as `pclcheck check --each`.
   * @param {Uint8Array[]} profiles
   * @param {Uint8Array} job
   * @param {string} [name]
   * @returns {Verdict[]}
   */
  checkEach(profiles, job, name = "job") {
    return profiles.map((profile) => this.judge([profile], job, name, true));
  }

  /**
   * What a job leaves to a printer, from its first panel: what `pclcheck notes` writes, and the
   * notes in it.
   * @param {Uint8Array} profile
   * @param {Uint8Array} job
   * @returns {Notes}
   */
  notes(profile, job) {
    const { rows, text } = this.make("web_notes", [profile, job], REFUSAL, VERDICT);
    const lines = linesOf(text).filter((line) => /^\d/.test(line));
    const notes = lines.map((line) => {
      const [place, number, ...words] = line.split(" ");
      return { place: Number(place), number: Number(number), name: words.join(" ") };
    });
    return { ...outcomeOf(rows[1]), text, notes };
  }

  /**
   * How many pages of a job can be drawn for a printer, from its first panel: those that end, and
   * the one on which the job fails.
   * @param {Uint8Array} profile
   * @param {Uint8Array} job
   */
  pageCount(profile, job) {
    const { text } = this.make("web_page_count", [profile, job], REFUSAL);
    const [first, failure] = text.split("\n");
    const found = /\(pages=(\d+)\)$/.exec(first);
    return Number(found?.[1] ?? 0) + (failure === "" ? 0 : 1);
  }

  /**
   * The picture of a page, from 1, as SVG, or for 0 of all pages as a document of HTML: what
   * `pclcheck picture` writes. Sentences in it have this name of the job.
   * @param {Uint8Array} profile
   * @param {Uint8Array} job
   * @param {number} page
   * @param {string} [name]
   */
  picture(profile, job, page, name = "job") {
    return this.make("web_picture", [profile, ENCODER.encode(name), page, job], REFUSAL).text;
  }

  /**
   * The items of a job near a place, as `pclcheck list` has them.
   * @param {Uint8Array} job
   * @param {number} place
   * @returns {Listed[]}
   */
  listAround(job, place) {
    const { text } = this.make("web_list_around", [job, place]);
    return linesOf(text).map((line) => {
      const blank = line.indexOf(" ");
      return { place: Number(line.slice(0, blank)), spelling: line.slice(blank + 1) };
    });
  }

  /**
   * What is known of a code, as `pclcheck explain` writes it.
   * @param {string} code
   */
  explain(code) {
    return this.make("web_explain", [ENCODER.encode(code)]).text;
  }

  /**
   * The models of which there are profiles, and the papers that they can have.
   * @returns {Model[]}
   */
  models() {
    return linesOf(this.make("web_models", []).text).map((line) => {
      const [front, papers] = line.split("; papers: ");
      const colon = front.indexOf(": ");
      return {
        name: front.slice(0, colon),
        title: front.slice(colon + 2),
        papers: papers.split(" "),
      };
    });
  }

  /**
   * The text of a profile of a model with letter and A4, whose panel nobody uses: what
   * `pclcheck profile new MODEL` writes.
   * @param {string} model
   */
  newProfile(model) {
    return this.make("web_new_profile", [ENCODER.encode(model)]).text;
  }

  /**
   * All that is wrong with the text of a profile, or hints, as `pclcheck profile lint` writes it of
   * a text of this name.
   * @param {Uint8Array} profile
   * @param {string} [name]
   * @returns {Lint}
   */
  lint(profile, name = "profile") {
    const { rows, text } = this.make("web_lint", [ENCODER.encode(name), profile], COUNT);
    return { hasFaults: rows[0][0] !== 0, text };
  }

  /**
   * A job in one spelling, as `pclcheck plain` writes it.
   * @param {Uint8Array} job
   * @returns {Written}
   */
  plain(job) {
    const { rows, bytes } = this.make("web_plain", [job], VERDICT);
    return { ...outcomeOf(rows[0]), bytes };
  }

  /**
   * A job pinned to the first panel of a printer, but for the values that are chosen, as
   * `pclcheck pin` writes it.
   * @param {Uint8Array} job
   * @param {Uint8Array} profile
   * @param {Panel} [panel]
   * @returns {Written}
   */
  pin(job, profile, panel = {}) {
    const chosen = Object.entries(panel);
    const pairs = chosen.flatMap(([field, value]) => [FIELDS.indexOf(field) + 1, value]);
    const array = new Uint8Array(new Uint32Array(pairs).buffer);
    const given = [profile, { array, count: chosen.length }, job];
    const { rows, bytes } = this.make("web_pin", given, REFUSAL, VERDICT);
    return { ...outcomeOf(rows[1]), bytes };
  }
}
