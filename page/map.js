// The map of a grid message: which places are asked for, the shifts at the pointer and at a pin.
import { COMPONENTS, countDecimals, countUnit, gridOf, positionWords, sampleArea, shiftsOnGrid } from "./grid.js";
import { refusalMeaning, refusalName, shiftsAt } from "./library.js";
import { drawLegend, drawOverlay, drawPlot, placesFor, toPixels, toPosition, withinPlot } from "./map_drawing.js";
import { byId, element, grouped, nearestStep, wholeUnits } from "./text.js";

const map = { message: null, grid: null, component: 0, samples: null, plot: null, pin: null, pointer: null };

export function startMap() {
  const canvas = byId("map-overlay");
  canvas.addEventListener("pointermove", (event) => { map.pointer = positionAt(event); showPointer(); });
  canvas.addEventListener("pointerleave", () => { map.pointer = null; showPointer(); });
  canvas.addEventListener("click", (event) => {
    const position = positionAt(event);
    if (position) setPin(position);
  });
  canvas.addEventListener("keydown", movePin);
  byId("position-form").addEventListener("submit", pinTyped);
  byId("map-centre").addEventListener("change", drawMap);
  byId("components").addEventListener("change", (event) => {
    map.component = Number(event.target.value);
    redrawMap();
  });
}

// The component that is shown.
export function mapComponent() {
  return map.component;
}

export function showMap(message, fields, number) {
  map.message = message;
  map.grid = gridOf(fields, number);
  map.pointer = null;
  byId("map-problem").textContent = map.grid.problem ?? "";
  for (const id of ["map-body", "components", "map-middle"]) byId(id).hidden = map.grid.problem !== undefined;
  if (map.grid.problem) return;
  map.pin = { north: map.grid.north, east: map.grid.east };
  chooseComponent(shiftsOnGrid(message, map.grid, map.pin));
  byId("north-label").textContent = map.grid.plane ? "Northing, m" : "Latitude, \u00b0";
  byId("east-label").textContent = map.grid.plane ? "Easting, m" : "Longitude, \u00b0";
  redrawMap();
}

// Keeps the component that is shown, unless only another one is answered in the middle of the grid.
function chooseComponent(parts) {
  const answered = parts.findIndex((part) => part.refusal === 0);
  if (parts[map.component].refusal !== 0 && answered >= 0) map.component = answered;
  byId("components").querySelectorAll("input").forEach((input) => {
    input.checked = Number(input.value) === map.component;
  });
}

export function redrawMap() {
  if (map.grid.problem) return;
  map.plot = placesFor(map.grid, byId("map-area").clientWidth);
  const before = performance.now();
  map.samples = sampleArea(map.message, map.grid, map.component, map.plot);
  const time = Math.max(1, Math.round(performance.now() - before));
  byId("map-time").textContent = `${grouped(map.plot.columns)} \u00d7 ${grouped(map.plot.rows)} places asked in ${time} ms`;
  includeNodes(map.samples);
  drawMap();
}

// The smallest and the greatest count of a cell stand at its nodes, which the places drawn may miss.
function includeNodes(samples) {
  for (const node of map.grid.nodes) {
    const part = shiftsOnGrid(map.message, map.grid, node)[map.component];
    if (part.refusal !== 0) continue;
    samples.smallest = Math.min(samples.smallest, part.count);
    samples.greatest = Math.max(samples.greatest, part.count);
  }
}

// The count that has the middle colour, and how far the colours reach from it.
function colourRange() {
  const { samples, grid, component } = map;
  const wanted = byId("map-centre").value;
  const zeroInside = samples.smallest <= 0 && samples.greatest >= 0;
  const aboutZero = wanted === "zero" || (wanted === "automatic" && zeroInside);
  const middle = aboutZero ? 0 : grid.means[component] ?? 0;
  const answered = samples.smallest <= samples.greatest;
  const reach = Math.max(Math.abs(samples.greatest - middle), Math.abs(samples.smallest - middle), 1);
  return { middle, reach: answered ? reach : 1, answered, aboutZero };
}

function drawMap() {
  const { samples, grid, component } = map;
  const range = colourRange();
  drawPlot(byId("map"), map, range);
  drawLegend(byId("legend"), map, range);
  const refused = [...new Set(samples.refusals)].filter((refusal) => refusal !== 0).map(refusalName);
  const words = [];
  if (refused.length) words.push(`Hatched: no answer (${refused.join(", ")}).`);
  if (samples.smallest < 0 && samples.greatest >= 0) words.push("Black line: the sign changes.");
  byId("map-refused").textContent = words.join(" ");
  byId("map").setAttribute("aria-label", `Map of the ${COMPONENTS[component].name} shift over a grid of sixteen nodes; `
    + `its middle is ${positionWords(grid, grid).join(", ")}`);
  setPin(map.pin);
}

function positionAt(event) {
  const box = event.currentTarget.getBoundingClientRect();
  const [x, y] = [event.clientX - box.left, event.clientY - box.top];
  return withinPlot(map, x, y) ? toPosition(map, x, y) : null;
}

function showPointer() {
  drawOverlay(byId("map-overlay"), map);
  byId("pointer-answer").replaceChildren(map.pointer ? answerTable("Pointer", map.pointer) : element("p", { class: "hint" },
    "Point at the map for the shifts there. A click pins a place; arrow keys move the pin."));
}

function setPin(position) {
  map.pin = position;
  const [stepsInOne, decimals] = map.grid.plane ? [1000, 3] : [36000000, 9];
  byId("north-input").value = (position.north / stepsInOne).toFixed(decimals);
  byId("east-input").value = (position.east / stepsInOne).toFixed(decimals);
  byId("position-error").textContent = "";
  byId("pinned-answer").replaceChildren(answerTable("Pinned", position));
  showPointer();
}

function answerTable(title, position) {
  const { message, grid } = map;
  const parts = shiftsAt(message, position.north, position.east);
  const place = element("p", { class: "place" }, element("b", {}, title),
    ...positionWords(grid, position).map((words) => element("span", {}, words)));
  const head = element("tr", {}, element("th", { scope: "col" }, "component"),
    element("th", { scope: "col", class: "number" }, "count"), element("th", { scope: "col", class: "number" }, "shift"));
  return element("div", {}, place, element("table", { class: "answers" },
    element("thead", {}, head), element("tbody", {}, ...parts.map((part, component) => answerRow(part, component)))));
}

function answerRow(part, component) {
  const name = element("th", { scope: "row" }, COMPONENTS[component].name);
  if (part.refusal !== 0) {
    return element("tr", {}, name, element("td", { colspan: 2, class: "refused" },
      element("b", {}, refusalName(part.refusal)), ` (${part.refusal}): ${refusalMeaning(part.refusal)}`));
  }
  const shift = grouped(part.shift.toFixed(countDecimals(map.grid, component)));
  return element("tr", {}, name, element("td", { class: "number" }, grouped(part.count)),
    element("td", { class: "number" }, `${shift} ${countUnit(map.grid, component)}`));
}

function movePin(event) {
  const move = { ArrowUp: [0, -1], ArrowDown: [0, 1], ArrowLeft: [-1, 0], ArrowRight: [1, 0] }[event.key];
  if (!move) return;
  event.preventDefault();
  const size = event.shiftKey ? 10 : 1;
  const { x, y } = toPixels(map, map.pin);
  setPin(toPosition(map, x + move[0] * size, y + move[1] * size));
}

// A typed place: degrees or metres with up to nine decimals, taken to the nearest step.
function pinTyped(event) {
  event.preventDefault();
  const { plane } = map.grid;
  const units = ["north-input", "east-input"].map((id) => wholeUnits(byId(id).value, 9));
  if (units.includes(null)) {
    byId("position-error").textContent = plane
      ? "Northing and easting are metres with up to nine decimals."
      : "Latitude and longitude are degrees with up to nine decimals, south and west with a minus.";
    return;
  }
  const [north, east] = units.map((unit) => Number(nearestStep(unit, plane ? 1000n : 36000000n, 9)));
  if (!Number.isSafeInteger(north) || !Number.isSafeInteger(east)) {
    byId("position-error").textContent = "That is further than this page counts.";
    return;
  }
  setPin({ north, east });
}
