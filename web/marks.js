// @ts-check
/**
 * The marks of a picture of a page, read from its text, which pclcheck writes in one form. A unit
 * is 1/7200 inch.
 * @typedef {object} Mark
 * @property {number} x the left edge of its box
 * @property {number} y the upper edge
 * @property {number} width
 * @property {number} height
 * @property {boolean} isRising whether a line goes from the lower left of the box
 * @property {boolean} isLine
 * @property {number} place the byte of its item
 * @property {string} title
 */

const MOST_MARKS = 50_000;
const UNITS_PER_MM = 7200 / 25.4;
const MARK =
  /^<(?:text|rect|g|line) class="(glyph|area|box|row|line)"([^>]*)><title>([^<]*)<\/title>(.*)$/gm;

/**
 * The marks of a page, in the order in which they are drawn, how large its sheet is, and where red
 * shows that the job fails.
 * @param {string} svg
 */
export function marksOf(svg) {
  /** @type {Mark[]} */
  const marks = [];
  for (const [, kind, attributes, title, rest] of svg.matchAll(MARK)) {
    if (marks.length === MOST_MARKS) break;
    const place = Number(/byte (\d+)/.exec(title)?.[1] ?? 0);
    const box = boxOf(kind, attributes, title, rest);
    marks.push({ isRising: false, isLine: false, place, title, ...box });
  }
  const sides = /viewBox="0 0 ([\d.]+) ([\d.]+)"/.exec(svg) ?? ["", "1", "1"];
  const fails = /class="failure" (?:x="|[^(]*\()(-?[\d.]+)(?:" y="| )(-?[\d.]+)/.exec(svg);
  const failure = fails && { x: Number(fails[1]), y: Number(fails[2]) };
  return { marks, width: Number(sides[1]), height: Number(sides[2]), failure };
}

/**
 * The box of a mark.
 * @param {string} kind
 * @param {string} attributes
 * @param {string} title
 * @param {string} rest
 */
function boxOf(kind, attributes, title, rest) {
  /** @param {string} name */
  const number = (name) => Number(new RegExp(` ${name}="(-?[\\d.]+)"`).exec(attributes)?.[1] ?? 0);
  if (kind === "glyph") {
    // The title alone has the upper edge: the text of a picture stands on its baseline.
    const y = Number(/y (-?[\d.]+) mm/.exec(title)?.[1] ?? 0) * UNITS_PER_MM;
    return { x: number("x"), y, width: number("textLength"), height: number("font-size") };
  }
  if (kind === "line") {
    const [x, y, x2, y2] = ["x1", "y1", "x2", "y2"].map(number);
    const box = { x: Math.min(x, x2), y: Math.min(y, y2), width: Math.abs(x2 - x) };
    return { ...box, height: Math.abs(y2 - y), isLine: true, isRising: x2 > x !== y2 > y };
  }
  if (kind === "row") {
    const [x, y, scale] = (/\(([-\d.]+) ([-\d.]+)\) scale\((\d+)\)/.exec(attributes) ?? [])
      .slice(1)
      .map(Number);
    const [, start, length] = /M(\d+) 0h(\d+)(?!.*M)/.exec(rest.split('"/>')[0]) ?? [0, 0, 0];
    return { x, y, width: (Number(start) + Number(length)) * scale, height: scale };
  }
  return { x: number("x"), y: number("y"), width: number("width"), height: number("height") };
}
