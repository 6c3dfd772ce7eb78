// The whole recording as one strip: the place of a byte goes from left to right.
import { KIND_COLOURS, hatching, pageColour, sharpContext } from "./colours.js";
import { indexAt } from "./recording.js";
import { grouped } from "./text.js";

const BAR_TOP = 8;
const BAR_HEIGHT = 26;
const HEIGHT = 54;
const LEAST_WIDTH = 40;
const strip = { recording: null, selected: null, ground: null, key: "" };

// choose(entry) is called with the entry that is chosen in the strip, words(entry) says what it is.
export function startStrip(choose, words) {
  const canvas = byStrip();
  canvas.addEventListener("click", (event) => chooseAt(entryAtPointer(event), choose));
  canvas.addEventListener("pointermove", (event) => {
    const entry = entryAtPointer(event);
    canvas.title = entry ? words(entry) : "";
  });
  canvas.addEventListener("keydown", (event) => {
    const move = { ArrowLeft: -1, ArrowRight: 1, Home: -Infinity, End: Infinity }[event.key];
    if (move === undefined) return;
    event.preventDefault();
    const { entries } = strip.recording;
    const next = indexAt(entries, strip.selected.at) + move;
    chooseAt(entries[Math.max(0, Math.min(entries.length - 1, next))], choose);
  });
}

function byStrip() {
  return document.getElementById("strip");
}

function chooseAt(entry, choose) {
  if (entry) choose(entry);
}

function entryAtPointer(event) {
  const { bytes, entries } = strip.recording;
  const box = byStrip().getBoundingClientRect();
  const place = Math.floor(((event.clientX - box.left) / box.width) * bytes.length);
  return entries[indexAt(entries, place)] ?? null;
}

export function drawStrip(recording, selected) {
  Object.assign(strip, { recording, selected });
  const width = Math.max(LEAST_WIDTH, byStrip().parentElement.clientWidth);
  const context = sharpContext(byStrip(), width, HEIGHT);
  const scale = width / Math.max(1, recording.bytes.length);
  context.drawImage(groundOf(recording, width), 0, 0, width, HEIGHT);
  if (selected) markSelected(context, selected, scale);
}

// The strip without its mark, drawn once for a recording, a width and the page's colours.
function groundOf(recording, width) {
  const key = [width, window.devicePixelRatio, pageColour("--panel")].join();
  if (strip.ground?.recording === recording && strip.key === key) return strip.ground.canvas;
  const canvas = document.createElement("canvas");
  const context = sharpContext(canvas, width, HEIGHT);
  const scale = width / Math.max(1, recording.bytes.length);
  context.fillStyle = pageColour("--panel");
  context.fillRect(0, BAR_TOP, width, BAR_HEIGHT);
  for (const kind of ["noise", "unfinished", "crc", "other", "sound", "refused"]) drawKind(context, recording, kind, scale);
  drawPlaces(context, recording.bytes.length, width, scale);
  strip.ground = { recording, canvas };
  strip.key = key;
  return canvas;
}

// Entries that are much narrower than a pixel are drawn once for each pixel.
function drawKind(context, { entries }, kind, scale) {
  const [colour, outside] = KIND_COLOURS[kind];
  context.fillStyle = outside ? hatching(context, pageColour(colour), 5) : colour;
  let drawn = -1;
  for (const entry of entries) {
    if (entry.kind !== kind) continue;
    const left = entry.at * scale;
    const size = entry.size * scale;
    if (left + size < drawn + 0.5) continue;
    const width = Math.max(1, size - (size > 4 && !outside ? 1 : 0));
    context.fillRect(left, BAR_TOP, width, BAR_HEIGHT);
    if (kind === "crc" || kind === "unfinished") context.fillRect(left, BAR_TOP + BAR_HEIGHT - 3, width, 3);
    drawn = left + width;
  }
}

function markSelected(context, selected, scale) {
  const left = selected.at * scale;
  const size = Math.max(2, selected.size * scale - 1);
  context.strokeStyle = pageColour("--text");
  context.lineWidth = 2;
  context.strokeRect(left, BAR_TOP - 1, size, BAR_HEIGHT + 2);
  context.fillStyle = pageColour("--text");
  const middle = left + size / 2;
  context.beginPath();
  context.moveTo(middle - 5, 0);
  context.lineTo(middle + 5, 0);
  context.lineTo(middle, 6);
  context.fill();
}

function drawPlaces(context, length, width, scale) {
  const wanted = length / Math.max(2, width / 110);
  const power = 10 ** Math.floor(Math.log10(Math.max(1, wanted)));
  const step = [1, 2, 5, 10].map((factor) => factor * power).find((size) => size >= wanted) ?? 1;
  context.fillStyle = pageColour("--quiet");
  context.font = `11px ${pageColour("--font")}`;
  for (let place = 0; place <= length; place += step) {
    const x = place * scale;
    context.fillRect(Math.min(x, width - 1), BAR_TOP + BAR_HEIGHT + 1, 1, 4);
    const label = grouped(place);
    const size = context.measureText(label).width;
    context.fillText(label, Math.max(0, Math.min(width - size, x - size / 2)), HEIGHT - 4);
  }
}
