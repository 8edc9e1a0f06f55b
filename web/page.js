// @ts-check
import { readyInputs, readyPrinters, showPrinters } from "./choose.js";
import { ask, onReading, start } from "./checker.js";
import { byId, putTexts, whyOf } from "./dom.js";
import { openJob, readyJob, refreshJob, showItemsAt } from "./job_view.js";
import { readyReport } from "./report.js";
import { clearJobs, onChange, recall, state } from "./state.js";
import { readyTable, showReading, showTable } from "./table.js";
import { say } from "./texts.js";
import { readyViewer } from "./viewer.js";

async function ready() {
  putTexts();
  try {
    await start();
    Object.assign(state, await ask("shelf", []));
  } catch (error) {
    byId("subtitle").textContent = say("startFailed", { why: whyOf(error) });
    return;
  }
  await recall();
  byId("subtitle").textContent = say("subtitle", { version: state.version });
  readyPrinters();
  readyInputs();
  readyTable(openJob);
  readyJob();
  readyViewer(showItemsAt);
  readyReport();
  byId("clear").onclick = clearJobs;
  onChange((jobs) => {
    if (!jobs) showPrinters();
    showTable(jobs);
    refreshJob(jobs);
  });
  onReading(showReading);
  showPrinters();
  document.body.dataset.ready = "1";
}

ready();
