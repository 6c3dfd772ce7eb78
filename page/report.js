// The report over points: how many are answered by one component of a grid, why others are not, smallest and greatest.
import { COMPONENTS, countDecimals, countUnit, positionWords } from "./grid.js";
import { refusalMeaning, refusalName, reportPoints } from "./library.js";
import { looksLikeReportText, readPoints, readReportText } from "./points.js";
import { messageNumber } from "./recording.js";
import { byId, element, grouped, several, withDecimals } from "./text.js";

// grid is { message, plane, words } of the grid message that was chosen last; text is what was opened or typed.
const report = { grid: null, text: "" };

export function startReport() {
  byId("report-points").addEventListener("input", () => setText(byId("report-points").value));
  byId("report-form").addEventListener("submit", (event) => event.preventDefault());
  for (const id of ["report-units", "report-components"]) byId(id).addEventListener("change", makeReport);
  makeReport();
}

// Takes the grid message over whose points the report goes.
export function setReportGrid(message, number, component, words) {
  report.grid = { message, plane: number === 1024, words };
  checkComponent(component);
  byId("report-units").querySelector("[value=units]").textContent = number === 1024 ? "metres" : "degrees";
  byId("report-units").querySelector("[value=steps]").textContent = number === 1024 ? "steps of 1 mm" : "steps of 0.0001\u2033";
  makeReport();
}

// Makes ready for points over the grid that is chosen: a text with a message of its own gives way.
export function expectPoints() {
  if (byId("report-units").value === "report") byId("report-units").value = "units";
  if (looksLikeReportText(report.text)) {
    report.text = "";
    byId("report-points").value = "";
  }
  makeReport();
}

// A file of points. The text is kept as it is, since a text area changes the ends of lines.
export function openPoints(bytes) {
  const text = new TextDecoder("utf-8", { ignoreBOM: true }).decode(bytes);
  byId("report-points").value = text;
  report.text = "";
  setText(text);
}

function setText(text) {
  if (looksLikeReportText(text) && !looksLikeReportText(report.text)) byId("report-units").value = "report";
  report.text = text;
  makeReport();
}

function checkComponent(component) {
  byId("report-components").querySelectorAll("input").forEach((input) => { input.checked = Number(input.value) === component; });
}

function chosenComponent() {
  return Number(byId("report-components").querySelector("input:checked").value);
}

// { message, component, north, east }, { problem }, or null where there is no grid or no point.
function input() {
  const form = byId("report-units").value;
  if (form === "report") return readReportText(report.text);
  if (!report.grid || report.text.trim() === "") return null;
  const points = readPoints(report.text, form === "steps" ? "steps" : report.grid.plane ? "metres" : "degrees");
  return points.problem ? points : { ...points, message: report.grid.message, component: chosenComponent() };
}

function makeReport() {
  const form = byId("report-units").value;
  byId("report-components").disabled = form === "report";
  byId("report-grid").textContent = form === "report" ? "The grid message and the component are those of the text."
    : report.grid ? `Grid message: ${report.grid.words}.`
      : "No grid message is chosen yet: open a recording and choose a 1023 or 1024, or paste a text of the program report.";
  const given = form === "report" && report.text === "" ? null : input();
  if (form === "report" && given?.component < 3) checkComponent(given.component);
  byId("report-error").textContent = given?.problem ? `Line ${grouped(given.problem.line)}: ${given.problem.words}.` : "";
  byId("report-body").hidden = given === null || given.problem !== undefined;
  byId("report-text").value = given === null ? "" : given.problem ? `bad input: line ${given.problem.line}\n` : "";
  if (given && !given.problem) showAnswer(given, reportPoints(given.message, given.component, given.north, given.east));
}

function showAnswer(given, answer) {
  byId("report-text").value = answerText(answer);
  const rows = answer.refusal === 0 ? answerRows(given, answer)
    : [element("tr", { class: "refused-row" }, element("td", { colspan: 3, class: "refused" },
      element("b", {}, refusalName(answer.refusal)), ` (${answer.refusal}): ${refusalMeaning(answer.refusal)}`))];
  byId("report-rows").replaceChildren(...rows);
}

// The lines that the program report prints.
function answerText(answer) {
  if (answer.refusal !== 0) return `refused ${answer.refusal}\n`;
  const { answered, refused, smallest, greatest, smallestPlace, greatestPlace, sum } = answer;
  return [answered, ...refused, smallest, greatest, smallestPlace, greatestPlace, sum, ""].join("\n");
}

function row(words, number, more, attributes = {}) {
  return element("tr", attributes, element("th", { scope: "row" }, words),
    element("td", { class: "number" }, number), element("td", {}, more));
}

function answerRows(given, answer) {
  const points = given.north.length;
  const refused = answer.refused.map((count, index) => ({ refusal: index + 1, count })).filter(({ count }) => count > 0n);
  return [
    row("answered", grouped(answer.answered), `of ${several(points, "point", "points")}`, { "data-line": "answered" }),
    ...refused.map(({ refusal, count }) => row(`refused ${refusal} ${refusalName(refusal)}`, grouped(count), refusalMeaning(refusal),
      { class: "refused-row", "data-line": `refused ${refusal}` })),
    ...(answer.answered > 0n ? extremeRows(given, answer) : []),
  ];
}

function extremeRows(given, { smallest, greatest, smallestPlace, greatestPlace, sum }) {
  const grid = { plane: messageNumber(given.message) === 1024 };
  const amount = (count) => `${grouped(withDecimals(count, countDecimals(grid, given.component)))} ${countUnit(grid, given.component)}`;
  const where = (place) => {
    const [north, east] = [given.north, given.east].map((list) => Number(list[Number(place) - 1]));
    return `, at point ${grouped(place)}: ${positionWords(grid, { north, east }).map((words) => words.split("  ")[0]).join(" ")}`;
  };
  return [
    row("smallest count", grouped(smallest), amount(smallest) + where(smallestPlace), { "data-line": "smallest" }),
    row("greatest count", grouped(greatest), amount(greatest) + where(greatestPlace), { "data-line": "greatest" }),
    row("sum of the counts", grouped(sum), `${amount(sum)}, ${COMPONENTS[given.component].name}`, { "data-line": "sum" }),
  ];
}
