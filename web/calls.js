// @ts-check
/**
 * Calls of the built module: how texts, bytes and rows of numbers cross.
 *
 * A call gets memory of its own, in which all lies that it reads and fills, and some to work in,
 * which it does not give back. So each call has an instance of the module to itself.
 */

/**
 * What a call is given: bytes, a number of 64 bits, a truth value, or an array of so many elements.
 * @typedef {Uint8Array | number | boolean | { array: Uint8Array, count: number }} Given
 */

/**
 * A call: its name, what it reads, the rows that it fills, and whether it needs memory to work and
 * has a text.
 * @typedef {object} Call
 * @property {string} name
 * @property {Given[]} given
 * @property {number[][]} rows the numbers of each row, by their bytes; less than 0 where they have a
 *   sign
 * @property {boolean} works
 * @property {boolean} hasText
 */

/** @typedef {{ number: number, rows: number[][], bytes: Uint8Array, needed: number }} Answer */

export const DONE = 0;
const ROOM = 1;
const MEMORY = 2;

const PAGE = 65536;
const MEGABYTE = 1 << 20;
const LEAST_WORK = 32 * MEGABYTE;
const LEAST_ROOM = 4 * MEGABYTE;
const MOST_MEMORY = 4096 * MEGABYTE - PAGE;

/** @param {number} n */
const aligned = (n) => Math.ceil(n / 16) * 16;

/** @param {number[]} sizes */
const sumOf = (sizes) => sizes.reduce((sum, size) => sum + size, 0);

/** @param {Given} given */
function sizeOf(given) {
  if (typeof given === "number" || typeof given === "boolean") {
    return 0;
  }
  return aligned(given instanceof Uint8Array ? given.length : given.array.length);
}

/** Where in memory all lies that a call is given and fills. */
class Layout {
  /** @param {number} at */
  constructor(at) {
    this.at = aligned(at);
    /** @type {(bigint | boolean)[]} the words of the call */
    this.words = [];
  }

  /**
   * Gives the call a place of so many bytes.
   * @param {number} size
   */
  place(size) {
    const at = this.at;
    this.at = aligned(at + size);
    this.words.push(BigInt(at));
    return at;
  }

  /**
   * Writes what a call is given.
   * @param {ArrayBuffer} memory
   * @param {Given} given
   */
  give(memory, given) {
    if (typeof given === "number") {
      this.words.push(BigInt(given));
      return;
    }
    if (typeof given === "boolean") {
      this.words.push(given);
      return;
    }
    const isBytes = given instanceof Uint8Array;
    const bytes = isBytes ? given : given.array;
    const at = this.place(bytes.length);
    new Uint8Array(memory, at, bytes.length).set(bytes);
    this.words.push(BigInt(isBytes ? given.length : given.count));
  }

  /**
   * Gives the call room for its text, and for the length of that.
   * @param {number} size
   */
  room(size) {
    const text = this.place(size);
    this.words.push(BigInt(size));
    return [text, this.place(8)];
  }
}

/**
 * A row has at most so many bytes.
 * @param {number[]} row
 */
const rowSize = (row) => row.length * 8;

/**
 * The numbers of a row.
 * @param {DataView} memory
 * @param {number} at
 * @param {number[]} row
 */
function readRow(memory, at, row) {
  return row.map((size) => {
    const place = at;
    at += Math.abs(size);
    if (size === 4) {
      return memory.getUint32(place, true);
    }
    const isSigned = size < 0;
    return Number(isSigned ? memory.getBigInt64(place, true) : memory.getBigUint64(place, true));
  });
}

/** An instance of the module, with as much memory as its calls needed. */
export class Instance {
  /** @param {WebAssembly.Module} module */
  constructor(module) {
    const exports = /** @type {{ [name: string]: any }} */ (
      new WebAssembly.Instance(module, {}).exports
    );
    this.exports = exports;
    /** @type {WebAssembly.Memory} */
    this.memory = exports.memory;
    this.begin = Number(exports.__heap_base.value);
  }

  /**
   * Lets the memory be so many bytes, or tells that it cannot.
   * @param {number} size
   */
  reaches(size) {
    const pages = Math.ceil((size - this.memory.buffer.byteLength) / PAGE);
    if (pages <= 0) {
      return true;
    }
    if (size > MOST_MEMORY) {
      return false;
    }
    try {
      grow(this.memory, pages);
      return true;
    } catch {
      return false;
    }
  }

  /**
   * Makes a call with so much memory to work in and so much room for its text, or answers nothing
   * where so much is not to be had.
   * @param {Call} call
   * @param {number} work
   * @param {number} room
   * @returns {Answer | null}
   */
  run(call, work, room) {
    const given = sumOf(call.given.map(sizeOf));
    const rows = sumOf(call.rows.map((row) => aligned(rowSize(row))));
    if (!this.reaches(this.begin + given + rows + work + room + 64)) {
      return null;
    }
    const { buffer } = this.memory;
    const view = new DataView(buffer);
    const layout = new Layout(this.begin);
    if (call.works) {
      const row = layout.place(16);
      view.setBigUint64(row, BigInt(layout.at), true);
      view.setBigUint64(row + 8, BigInt(work), true);
      layout.at += work;
    }
    for (const one of call.given) {
      layout.give(buffer, one);
    }
    const placed = call.rows.map((row) => layout.place(rowSize(row)));
    const [text, needed] = call.hasText ? layout.room(room) : [0, 0];
    const number = this.exports[call.name](...layout.words);
    const length = call.hasText ? Number(view.getBigUint64(needed, true)) : 0;
    return {
      number,
      rows: call.rows.map((row, index) => readRow(view, placed[index], row)),
      bytes: number === DONE ? new Uint8Array(buffer, text, length).slice() : new Uint8Array(),
      needed: length,
    };
  }
}

/**
 * Memories of 64 bits count their pages by large integers.
 * @param {WebAssembly.Memory} memory
 * @param {number} pages
 */
function grow(memory, pages) {
  try {
    memory.grow(pages);
  } catch (error) {
    if (!(error instanceof TypeError)) {
      throw error;
    }
    memory.grow(/** @type {any} */ (BigInt(pages)));
  }
}

/**
 * Makes a call with as much memory as it turns out to need. The answer is of MEMORY where all that
 * is to be had was not enough.
 * @param {WebAssembly.Module} module
 * @param {Call} call
 * @returns {Answer}
 */
export function makeCall(module, call) {
  let [work, room] = [LEAST_WORK, LEAST_ROOM];
  /** @type {Answer} */
  const refused = { number: MEMORY, rows: [], bytes: new Uint8Array(), needed: 0 };
  for (;;) {
    const answer = new Instance(module).run(call, call.works ? work : 0, room);
    if (answer === null) {
      return refused;
    }
    if (answer.number === ROOM) {
      room = aligned(answer.needed);
    } else if (answer.number === MEMORY) {
      work *= 4;
    } else {
      return answer;
    }
  }
}
