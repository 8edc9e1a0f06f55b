// @ts-check
/** All texts of the page, in one table. What stands in braces is filled in. */
const TEXTS = {
  title: "Will this job print?",
  subtitle: "pclcheck {version} checks PCL 5 jobs in this browser. Nothing leaves this computer.",
  starting: "pclcheck is starting.",
  startFailed: "pclcheck cannot start in this browser: {why}",

  jobs: "Jobs",
  drop: "Drop print jobs or profiles of printers here, paste them, or",
  chooseFiles: "Choose files…",
  tryExamples: "Try two examples",
  pasteTitle: "Paste the text of a job",
  pasteLabel: "Text of a job or a profile; \\x1b stands for the byte ESC",
  pasteAdd: "Add this text",
  pastedName: "pasted {n}",

  printers: "Printers",
  printersChosen: "Printers: {names}",
  printersNone: "Printers: choose at least one",
  models: "Models",
  modelsHint: "From memory of HP's manual: nobody measured these printers.",
  paper: "Paper in these models",
  paper2: "letter",
  paper26: "A4",
  paperFree: "letter or A4, as the panel has it",
  ownProfiles: "Profiles of your own",
  ownHint: "Drop profile files, or choose them above. They are kept in this browser.",
  remove: "Remove",
  removeNamed: "Remove {name}",
  refusedProfile: "This profile is refused.",
  cannotKeep: "This browser keeps nothing, so that these printers have to be chosen again.",

  verdict: "Verdict",
  job: "Job",
  noneLeft: "No job is left by these filters.",
  filterStatus: "Show",
  filterAll: "all ({n})",
  filterPASS: "PASS ({n})",
  filterFAIL: "FAIL ({n})",
  filterOTHER: "no verdict ({n})",
  filterWords: "With these words",
  progress: "{done} of {all} checks",
  progressRead: "{done} of {all} checks, reading {name}: {percent} %",
  progressLabel: "Checks that are done",
  progressDone: "All {all} checks are done.",
  progressDoneOne: "The check is done.",
  progressStopped: "Stopped: {done} of {all} checks are done.",
  stop: "Stop",
  goOn: "Go on",
  clear: "Remove all jobs",
  WAITING: "waits",
  STOPPED: "stopped",
  PASS: "PASS",
  FAIL: "FAIL",
  ERROR: "ERROR",
  waitingTold: "This check is not done yet.",
  stoppedTold: "This check was stopped.",
  errorTold: "No verdict: {why}.",
  tooLong:
    "No verdict: this job has {size} MB, and this page takes {most} MB. The program takes it.",
  timedOut: "it was given up after {seconds} seconds; the program has no such limit",
  workerDied: "the browser ended the check, as it does where memory is short",
  unreadable: "the file cannot be read ({why})",

  close: "Close",
  previousJob: "Previous job",
  nextJob: "Next job",
  onPrinter: "On",
  allTogether: "all printers together",
  items: "In the job at byte {place}",
  itemsHelp: "Click a mark of the page, and its item is shown here.",
  bytes: "Bytes around it",
  notes: "What a PASS leaves to {name}",
  notesNone: "Nothing.",
  notesFailed: "No notes: {why}.",
  atByte: "Show byte {place}",
  downloads: "Downloads",
  savePlain: "Save it in one spelling (plain)",
  savePin: "Save it pinned to the panel of {name}",
  saveShort: "It ends at byte {place}, where the job fails ({number}): do not print it.",
  saveFailed: "Not saved: {why}.",

  page: "Page",
  pageOf: "of {n}",
  pageBack: "Page before",
  pageForth: "Next page",
  zoomIn: "Larger",
  zoomOut: "Smaller",
  zoomFit: "Fit",
  pageHelp: "Arrow keys move the ruler 1 mm, with Shift 10; N and B go by marks, Enter picks.",
  pageAlt: "Page {page} of {name} on {printer}",
  pageDrawing: "The page is being drawn.",
  pageNone: "There is no page to show: {why}.",
  pageBig: "The picture of this page has {size} MB, which is too much to show here.",
  pageSave: "Save the picture",
  pageFails: "The job fails on this page: red shows where.",
  pageFirstPanel: "Drawn as the panel of {name} stands at first: {panel}.",
  pageUnset: "It is refused as {field} may also be {values}, and the job does not set it.",
  pageDiffers: "On this printer it prints so; on another one it does not print alike.",
  pointer: "x {x} mm ({xInch} in), y {y} mm ({yInch} in)",
  distance: "; from the last click {x} mm ({xInch} in) across, {y} mm ({yInch} in) down",
  mark: "{title}; box {width} × {height} mm",

  report: "Report",
  reportPrint: "Print a report",
  reportSave: "Save the report",
  reportTitle: "Print jobs, checked by pclcheck {version}",
  reportMade: "Made {date}, for {printers}.",
  reportMaking: "The report is being made.",
  reportReady: "The report is ready.",
  reportLimit: "Pictures are of the first {n} jobs that fail.",

  limits: "A verdict is about the printers of these profiles: the documents of pclcheck tell more.",
};

/** The names of values of a panel, for people. */
const VALUE_NAMES = /** @type {{ [field: string]: { [value: string]: string } }} */ ({
  size: { 1: "executive", 2: "letter", 3: "legal", 6: "ledger", 25: "A5", 26: "A4", 27: "A3" },
  orientation: { 0: "portrait", 1: "landscape", 2: "reverse portrait", 3: "reverse landscape" },
  sides: { 0: "one side", 1: "both, long edge", 2: "both, short edge" },
});

/** @typedef {keyof typeof TEXTS} TextName */

/**
 * A text, with these values in its braces.
 * @param {TextName} name
 * @param {{ [key: string]: string | number }} [values]
 */
export function say(name, values = {}) {
  return TEXTS[name].replace(/\{(\w+)\}/g, (_, key) => String(values[key]));
}

/**
 * A value of a field of a panel, with its name where it has one.
 * @param {string} field
 * @param {string} value
 */
export function valueName(field, value) {
  const name = VALUE_NAMES[field]?.[value];
  return name ? `${value} (${name})` : value;
}
