// The table of frames. Only the rows in sight are in the page, so a long recording stays quick.
import { refusalName } from "./library.js";
import { indexAt } from "./recording.js";
import { byId, element, grouped } from "./text.js";

const ROW_HEIGHT = 24;
const AROUND = 6; // rows that are drawn above and below those in sight
const MOST_HEIGHT = 12000000; // browsers take no element that is much higher; a longer list is scrolled in larger steps
const table = { entries: [], selected: -1, select: () => {} };

// select(entry) is called with the entry that is chosen in the table.
export function startFrames(select) {
  table.select = select;
  const area = byId("frames");
  area.addEventListener("scroll", drawRows);
  area.addEventListener("keydown", moveByKey);
  new ResizeObserver(drawRows).observe(area);
}

export function showFrames(entries, selectedEntry) {
  table.entries = entries;
  const found = selectedEntry ? indexAt(entries, selectedEntry.at) : -1;
  table.selected = entries[found] === selectedEntry ? found : -1;
  byId("frame-table").setAttribute("aria-rowcount", String(entries.length));
  byId("frames-shown").textContent = `${grouped(entries.length)} shown`;
  byId("frames-none").hidden = entries.length > 0;
  bringToSight();
  drawRows();
}

function moveByKey(event) {
  const page = Math.max(1, rowsInSight() - 2);
  const moves = { ArrowDown: 1, ArrowUp: -1, PageDown: page, PageUp: -page, Home: -Infinity, End: Infinity };
  const move = moves[event.key];
  if (move === undefined || table.entries.length === 0) return;
  event.preventDefault();
  const next = Math.max(0, Math.min(table.entries.length - 1, table.selected + move));
  table.select(table.entries[next]);
}

function rowsInSight() {
  return Math.floor(byId("frames").clientHeight / ROW_HEIGHT) - 1;
}

function isLong() {
  return table.entries.length * ROW_HEIGHT > MOST_HEIGHT;
}

// Pixels of scrolling for each row that can be the first in sight.
function pixelsPerRow() {
  if (!isLong()) return ROW_HEIGHT;
  return (MOST_HEIGHT + ROW_HEIGHT - byId("frames").clientHeight) / (table.entries.length - rowsInSight());
}

function firstInSight() {
  return Math.floor(byId("frames").scrollTop / pixelsPerRow());
}

function bringToSight() {
  if (table.selected < 0) return;
  const first = firstInSight();
  const scrollTo = (row) => { byId("frames").scrollTop = Math.ceil(Math.max(0, row) * pixelsPerRow()); };
  if (table.selected < first) scrollTo(table.selected);
  else if (table.selected >= first + rowsInSight()) scrollTo(table.selected - rowsInSight() + 1);
}

function drawRows() {
  const count = table.entries.length;
  const height = Math.min(MOST_HEIGHT, count * ROW_HEIGHT);
  const first = Math.max(0, Math.min(count, firstInSight() - AROUND));
  const last = Math.min(count, first + rowsInSight() + 2 * AROUND);
  const rows = table.entries.slice(first, last).map((entry, index) => frameRow(entry, first + index));
  const above = isLong() ? Math.max(0, byId("frames").scrollTop - (firstInSight() - first) * ROW_HEIGHT) : first * ROW_HEIGHT;
  byId("frame-rows").replaceChildren(spacer(above), ...rows, spacer(height - above - rows.length * ROW_HEIGHT));
}

function spacer(height) {
  const row = element("tr", { class: "spacer", "aria-hidden": "true" });
  row.style.height = `${Math.max(0, height)}px`;
  return row;
}

function frameRow(entry, index) {
  const { at, size, length, head, number, kind } = entry;
  return element("tr", {
    id: `frame-${index}`, class: `entry ${kind}`, "aria-rowindex": index + 1, "data-at": at,
    "aria-current": index === table.selected ? "true" : null, onclick: () => table.select(entry),
  }, element("td", { class: "number" }, grouped(at)), element("td", { class: "number" }, grouped(head ? length : size)),
  element("td", { class: "number" }, head ? String(number ?? "\u2013") : ""),
  element("td", {}, element("i", { class: "mark", "aria-hidden": "true" }), entryWords(entry)));
}

const OUTSIDE_WORDS = { crc: "wrong CRC", unfinished: "not finished", noise: "noise" };

export function entryWords({ kind, sin, refusal, number }) {
  if (kind === "sound") return `SIN ${sin}`;
  if (kind === "refused") return `refused ${refusal} ${refusalName(refusal)}`;
  return OUTSIDE_WORDS[kind] ?? (number === null ? "no number" : "other");
}
