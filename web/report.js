// @ts-check
/** A report of the jobs that the filters leave, to print or to save. */
import { ask } from "./checker.js";
import { byId, make, save } from "./dom.js";
import { explained } from "./job_view.js";
import { TOGETHER, printers, resultOf, state } from "./state.js";
import { shownJobs } from "./table.js";
import { say } from "./texts.js";

const MOST_PICTURES = 50;
const HEAD = `<!doctype html>
<html lang="en">
<meta charset="utf-8">
<meta name="viewport" content="width=device-width">
<meta http-equiv="Content-Security-Policy"
  content="default-src 'none'; img-src data:; style-src 'unsafe-inline'">`;

/** Readies both ways to have a report. */
export function readyReport() {
  byId("report-print").onclick = () => fill().then(() => window.print());
  byId("report-save").onclick = () =>
    fill().then(() => {
      const style = document.querySelector("style")?.textContent ?? "";
      const body = `<body class="saved">${byId("report").outerHTML}</body>`;
      const text = `${HEAD}\n<title>${say("report")}</title>\n<style>${style}</style>\n${body}\n`;
      save("report.html", new Blob([text], { type: "text/html" }));
    });
}

async function fill() {
  byId("told").textContent = say("reportMaking");
  const names = printers().map(({ name }) => name);
  const made = { date: new Date().toLocaleString(), printers: names.join(", ") };
  const entries = [];
  let pictures = 0;
  for (const job of shownJobs()) {
    const isFail = resultOf(job, TOGETHER).status === "FAIL";
    entries.push(await entryOf(job, isFail && ++pictures <= MOST_PICTURES));
  }
  byId("report").replaceChildren(
    make("h1", {}, say("reportTitle", { version: state.version })),
    make("p", {}, say("reportMade", made)),
    ...entries,
    make("p", {}, say("reportLimit", { n: MOST_PICTURES })),
    make("p", {}, say("limits")),
  );
  byId("told").textContent = say("reportReady");
}

/**
 * What the report has of a job.
 * @param {import("./state.js").Job} job
 * @param {boolean} hasPicture
 */
async function entryOf(job, hasPicture) {
  const result = resultOf(job, TOGETHER);
  const told = make("p", {}, make("b", {}, say(result.status)), ` ${result.sentence}`);
  const entry = make("section", { className: result.status }, make("h2", {}, job.name), told);
  const fleet = printers();
  const each = fleet.map(({ key, name }) => {
    const one = resultOf(job, key);
    return `${name}: ${one.status === "FAIL" ? one.finding : say(one.status)}`;
  });
  if (fleet.length > 1) entry.append(make("p", {}, each.join("; ")));
  if (!hasPicture || result.status !== "FAIL") return entry;
  entry.append(...explained(await ask("explain", [String(result.number)]).catch(() => "")));
  const printer = fleet[Math.max(1, result.printer) - 1];
  const page = Math.max(1, result.page);
  const picture = await ask("picture", [printer.profile, page, job.name], job).catch(() => null);
  if (!picture || picture.isBig) return entry;
  const alt = say("pageAlt", { page, name: job.name, printer: printer.name });
  const image = make("img", { src: await dataUrl(picture.image), alt });
  await image.decode().catch(() => {});
  entry.append(make("figure", {}, image, make("figcaption", {}, alt)));
  return entry;
}

/**
 * A picture within an address, so that a saved report has it.
 * @param {Blob} blob
 * @returns {Promise<string>}
 */
function dataUrl(blob) {
  return new Promise((resolve) => {
    const reader = new FileReader();
    reader.onload = () => resolve(String(reader.result));
    reader.readAsDataURL(blob);
  });
}
