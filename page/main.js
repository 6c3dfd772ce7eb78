// The page: which entry of a recording is chosen, and which parts are shown.
import { showCounts } from "./counts.js";
import { startDatum, showDatum } from "./datum.js";
import { entryWords, showFrames, startFrames } from "./frames.js";
import { openHeights, startHeights } from "./heights.js";
import { checkSamples, refusalNumber, startLibrary } from "./library.js";
import { mapComponent, redrawMap, showMap, startMap } from "./map.js";
import { moveField, showMessage } from "./message.js";
import { showOverview } from "./overview.js";
import { isOutside, isOwnNumber, messageOf, readRecording, recordingText } from "./recording.js";
import { expectPoints, openPoints, setReportGrid, startReport } from "./report.js";
import { showSamples } from "./samples.js";
import { saveFile } from "./save.js";
import { markService, showServices, startServices } from "./services_table.js";
import { drawStrip, startStrip } from "./strip.js";
import { showTab, startTabs } from "./tabs.js";
import { byId, grouped, several } from "./text.js";

const MOST_TEXT_LINES = 20000;
const state = { recording: null, name: "", selected: null, shown: [] };

async function start() {
  try {
    await startLibrary();
  } catch (error) {
    byId("problem").textContent = "This browser can\u2019t run the library: it has no WebAssembly with 64-bit memory. "
      + `Chromium or Chrome from 133 and Firefox from 134 have it. (${error.message})`;
    return;
  }
  const { bytes, sha256 } = TABLES.module;
  byId("module").textContent = `The library in this page: a module of ${grouped(bytes)} bytes, SHA-256 ${sha256}`;
  startTabs({ recording: showRecording, report: openPointsFile, heights: openHeightsFile, samples: showSamples });
  startFrames(select);
  startServices(selectAnyway);
  startStrip(selectAnyway, entryTitle);
  startMap();
  startDatum();
  startReport();
  startHeights((frame, name) => { showTab("recording"); showRecording(frame, name); });
  startRecordingControls();
  document.body.dataset.ready = "yes";
}

function startRecordingControls() {
  byId("own-only").addEventListener("change", refreshFrames);
  byId("with-outside").addEventListener("change", refreshFrames);
  byId("field-area").addEventListener("keydown", moveField);
  byId("samples-open").addEventListener("click", () => { showTab("samples"); showSamples(state.recording.bytes, state.name); });
  byId("text-area").addEventListener("toggle", showText);
  byId("text-save").addEventListener("click", () => saveFile(`${state.name}.txt`, recordingText(state.recording)));
  byId("report-open").addEventListener("click", () => {
    giveGrid();
    expectPoints();
    showTab("report");
    byId("report-points").focus();
  });
  addEventListener("resize", redraw);
  matchMedia("(prefers-color-scheme: dark)").addEventListener("change", redraw);
}

function entryTitle(entry) {
  const number = isOutside(entry) ? "" : `${entry.number ?? "no number"}, `;
  return `${grouped(entry.at)}: ${number}${entryWords(entry)}, ${several(entry.length, "byte", "bytes")}`;
}

function openPointsFile(bytes, name) {
  openPoints(bytes);
  byId("report-name").textContent = name;
}

function openHeightsFile(bytes, name) {
  openHeights(bytes);
  byId("heights-name").textContent = name;
}

function showRecording(bytes, name) {
  state.name = name;
  state.recording = readRecording(bytes);
  const { frames, entries, bare } = state.recording;
  byId("recording-name").textContent = name;
  byId("recording-body").hidden = false;
  byId("recording-body").classList.toggle("bare", bare);
  document.body.classList.add("opened");
  const another = frames.length === 0 || bare;
  byId("samples-hint").hidden = !(another && checkSamples(bytes).refusal !== refusalNumber("LAYOUT"));
  showOverview(state.recording);
  showCounts(state.recording);
  showServices(state.recording);
  byId("own-only").checked = false;
  byId("with-outside").checked = frames.length === 0;
  byId("text-area").open = false;
  byId("work").hidden = entries.length === 0;
  state.shown = shownEntries();
  if (entries.length) select(frames.find((frame) => frame.kind === "sound") ?? frames[0] ?? entries[0]);
}

// The frames as text; a long one is only saved.
function showText() {
  if (!byId("text-area").open) return;
  const long = state.recording.frames.length > MOST_TEXT_LINES;
  byId("as-text").hidden = long;
  byId("as-text").value = long ? "" : recordingText(state.recording);
  byId("text-long").textContent = long ? `${grouped(state.recording.frames.length)} lines are too many to show here.` : "";
}

function shownEntries() {
  const own = byId("own-only").checked;
  const outside = byId("with-outside").checked;
  return state.recording.entries.filter((entry) => (isOutside(entry) ? outside : !own || isOwnNumber(entry.number)));
}

function refreshFrames() {
  state.shown = shownEntries();
  if (!state.shown.includes(state.selected) && state.shown.length) {
    select(state.shown.find((entry) => entry.at >= state.selected.at) ?? state.shown.at(-1));
  } else showFrames(state.shown, state.selected);
}

// Chooses an entry that the filter may hide: the filter gives way.
function selectAnyway(entry) {
  if (isOutside(entry)) byId("with-outside").checked = true;
  else if (!isOwnNumber(entry.number)) byId("own-only").checked = false;
  state.shown = shownEntries();
  select(entry);
}

function select(entry) {
  const { recording } = state;
  state.selected = entry;
  showFrames(state.shown, entry);
  if (!recording.bare) {
    drawStrip(recording, entry);
    markService(entry);
  }
  const fields = showMessage(recording, entry);
  const grid = fields !== null && (entry.number === 1023 || entry.number === 1024);
  const datum = fields !== null && entry.number === 1021;
  byId("map-panel").hidden = !grid;
  byId("datum-panel").hidden = !datum;
  byId("work").classList.toggle("explained", grid || datum);
  if (grid) showMap(messageOf(recording, entry), fields, entry.number);
  if (grid) giveGrid();
  if (datum) showDatum(messageOf(recording, entry), fields);
}

// Gives the chosen grid message to the report.
function giveGrid() {
  const { number, sin, head, at } = state.selected;
  const place = head === 0 ? "" : `, frame at ${grouped(at)}`;
  setReportGrid(messageOf(state.recording, state.selected), number, mapComponent(), `${number} of SIN ${sin}${place}, ${state.name}`);
}

function redraw() {
  if (!state.recording || state.recording.entries.length === 0) return;
  if (!state.recording.bare) drawStrip(state.recording, state.selected);
  if (!byId("map-panel").hidden) redrawMap();
}

start();
