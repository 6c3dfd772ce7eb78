// A height grid: sixteen typed heights become a message 1023, which is saved as a frame.
import { fieldOf, messageFields, rowOf } from "./fields.js";
import { gridOf, shiftsOnGrid } from "./grid.js";
import { refusalMeaning, refusalName, refusalNumber, writeFrame, writeHeights } from "./library.js";
import { saveFile } from "./save.js";
import { byId, element, grouped, hexadecimal, nearestStep, several, shortSexagesimal, wholeUnits, withDecimals } from "./text.js";

const NODES = 16;
// The numbers beside the heights: the field, the decimals that may be typed, the steps in one, and what is wanted.
const NUMBERS = [
  { id: "heights-sin", field: "DF147", decimals: 0, steps: 1n, words: "The SIN is a whole number from 0 to 255." },
  { id: "heights-north", field: "DF192", decimals: 9, steps: 7200n, words: "The latitude is in degrees with up to nine decimals, south with a minus." },
  { id: "heights-east", field: "DF193", decimals: 9, steps: 7200n, words: "The longitude is in degrees with up to nine decimals, west with a minus." },
  { id: "heights-north-spacing", field: "DF194", decimals: 3, steps: 2n, words: "The spacing north-south is in arc seconds with up to three decimals." },
  { id: "heights-east-spacing", field: "DF195", decimals: 3, steps: 2n, words: "The spacing east-west is in arc seconds with up to three decimals." },
  { id: "heights-quality", field: "DF217", decimals: 0, steps: 1n, words: "The quality is one of the list." },
  { id: "heights-day", field: "DF051", decimals: 0, steps: 1n, words: "The day is a whole number, the Modified Julian Day, or 0." },
];
const made = { frame: null, sin: 0, look: () => {} };

// look(bytes, name) is called to show the frame as a recording.
export function startHeights(look) {
  made.look = look;
  byId("height-rows").replaceChildren(...[0, 1, 2, 3].map(heightRow));
  byId("heights-quality").replaceChildren(...Object.entries(TABLES.fields.DF217.codes).map(([value, words]) =>
    element("option", { value }, `${value}: ${words}`)));
  byId("heights-form").addEventListener("input", makeGrid);
  byId("heights-form").addEventListener("submit", (event) => event.preventDefault());
  byId("heights-form").addEventListener("paste", pasteHeights);
  byId("heights-save").addEventListener("click", () => saveFile(frameName(), made.frame));
  byId("heights-look").addEventListener("click", () => made.look(made.frame, frameName()));
  makeGrid();
}

function frameName() {
  return `height-grid-sin-${made.sin}.rtcm`;
}

function heightRow(row) {
  const side = ["north", "", "", "south"][row];
  const cells = [0, 1, 2, 3].map((column) => {
    const node = 4 * row + column + 1;
    return element("td", {}, element("label", { class: "height-node", for: `height-${node}` }, String(node)),
      element("input", { id: `height-${node}`, inputmode: "decimal", autocomplete: "off", size: 9, "aria-label": `Height at node ${node}, m` }));
  });
  return element("tr", {}, element("th", { scope: "row" }, side), ...cells);
}

// Heights from a text, node after node from the one given: numbers with commas, semicolons, spaces or lines between them.
function fillHeights(text, from) {
  const parts = text.trim().split(/[\s,;]+/);
  parts.slice(0, NODES + 1 - from).forEach((part, index) => { byId(`height-${from + index}`).value = part; });
  makeGrid();
  return parts.length;
}

function pasteHeights(event) {
  const node = /^height-(\d+)$/.exec(event.target.id);
  const text = event.clipboardData.getData("text");
  if (!node || !/\S[\s,;]+\S/.test(text.trim())) return;
  event.preventDefault();
  fillHeights(text, Number(node[1]));
}

// A file of sixteen heights.
export function openHeights(bytes) {
  const count = fillHeights(new TextDecoder().decode(bytes), 1);
  if (count !== NODES) byId("heights-error").textContent = `The file has ${grouped(count)} numbers or words where sixteen heights are wanted.`;
}

// The typed numbers as steps of their fields and the heights in millimetres, or what is wrong with the first bad one.
function typedGrid() {
  const values = {};
  for (const { id, field, decimals, steps, words } of NUMBERS) {
    const units = wholeUnits(byId(id).value, decimals);
    if (units === null) return { problem: words };
    values[field] = nearestStep(units, steps, decimals);
  }
  const heights = Array.from({ length: NODES }, (_, index) => byId(`height-${index + 1}`).value);
  const missing = heights.filter((text) => text.trim() === "").length;
  if (missing === NODES) return { problem: "" };
  const wanted = heights.map((text) => wholeUnits(text, 3));
  const bad = wanted.findIndex((height, index) => height === null && heights[index].trim() !== "");
  if (bad >= 0) return { problem: `Node ${bad + 1}: a height in metres with up to three decimals is wanted, as 46.921.` };
  if (missing) return { problem: `${grouped(missing)} of sixteen heights ${missing === 1 ? "is" : "are"} missing.` };
  const all = [...Object.values(values), ...wanted];
  if (all.some((number) => BigInt.asIntN(64, number) !== number)) return { problem: "A number is past 64 bits." };
  return { values, wanted };
}

function makeGrid() {
  const { problem, values, wanted } = typedGrid();
  made.frame = null;
  byId("heights-error").textContent = problem ?? "";
  byId("heights-answer").hidden = problem !== undefined;
  if (problem === undefined) showGrid(values, BigInt64Array.from(wanted));
}

function showGrid(given, wanted) {
  const { values, present } = rowOf(1023, { DF002: 1023n, DF190: 0n, DF191: 1n, DF212: 0n, DF213: 0n, DF216: 0n, ...given });
  const { refusal, bytes: message } = writeHeights(values, present, wanted);
  byId("heights-verdict").className = refusal === 0 ? "verdict accepted" : "verdict refused";
  byId("heights-made").hidden = refusal !== 0;
  if (refusal !== 0) {
    byId("heights-verdict").textContent = `refused ${refusal} ${refusalName(refusal)}: ${refusalMeaning(refusal)}${refusalHint(refusal, wanted)}`;
    return;
  }
  made.frame = writeFrame(message).bytes;
  made.sin = Number(given.DF147);
  byId("heights-verdict").textContent = `a message 1023 of ${message.length} bytes, in a frame of ${made.frame.length}`;
  byId("heights-frame").textContent = [...made.frame].map(hexadecimal).join("");
  byId("heights-facts").replaceChildren(...factRows(message, wanted));
}

function refusalHint(refusal, wanted) {
  if (refusalName(refusal) !== "NOMEAN") return "";
  const sorted = [...wanted].sort((one, other) => (one < other ? -1 : one > other ? 1 : 0));
  const [smallest, greatest] = [sorted[0], sorted.at(-1)].map((height) => `${grouped(withDecimals(height, 3))} m`);
  return `. The heights go from ${smallest} to ${greatest}; they may lie at most 0.510 m apart, about a mean of whole centimetres, and within \u00b1164.085 m.`;
}

function factRows(message, wanted) {
  const fields = messageFields(message, 1023);
  const grid = gridOf(fields, 1023);
  const parts = grid.nodes.map((node) => shiftsOnGrid(message, grid, node)[2]);
  const right = parts.filter(({ refusal, count }, index) => refusal === 0 && BigInt(count) === 10n * wanted[index]).length;
  const beyond = parts.filter(({ refusal }) => refusal === refusalNumber("POSITION")).length;
  const place = [["DF192", "NS"], ["DF193", "EW"]].map(([field, letters]) =>
    shortSexagesimal(Number(fieldOf(fields, field).value) * 5000, letters)).join(", ");
  const spacing = ["DF194", "DF195"].map((field) => fieldOf(fields, field).shown.value).join(" by ");
  return [
    ["middle", place, "to the nearest half arc second"],
    ["spacing", spacing, "north-south by east-west"],
    ["mean (DF198)", fieldOf(fields, "DF198").shown.value, "the smallest that holds all sixteen"],
    ["day (DF051)", fieldOf(fields, "DF051").shown.value, fieldOf(fields, "DF051").shown.note || "not given"],
    ["at the nodes", `${right} of ${NODES - beyond}`, "shifts of the message that are the wanted height exactly"
      + (beyond ? `; ${several(beyond, "node lies", "nodes lie")} beyond a pole, where no position is` : "")],
  ].map(([words, value, more]) => element("tr", {}, element("th", { scope: "row" }, words),
    element("td", {}, value), element("td", { class: "hint" }, more)));
}
