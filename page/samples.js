// A file of sample answers: accepted, or its refusal and first bad point; and its points beside the library's answers.
import { checkSamples, refusalMeaning, refusalName, refusalNumber, shiftsAt } from "./library.js";
import { COMPONENTS } from "./grid.js";
import { messageNumber } from "./recording.js";
import { byId, element, grouped, several } from "./text.js";

export function showSamples(bytes, name) {
  const { refusal, place } = checkSamples(bytes);
  const layout = refusalNumber("LAYOUT");
  byId("samples-body").hidden = false;
  byId("samples-name").textContent = `${name}, ${several(bytes.length, "byte", "bytes")}`;
  const file = refusal === layout ? null : partsOf(bytes);
  byId("samples-answer").className = refusal === 0 ? "verdict accepted" : "verdict refused";
  byId("samples-answer").textContent = refusal === 0
    ? `accepted: all ${several(file.points.length, "point is", "points are")} answered with the counts that the file claims`
    : `refused ${refusal} ${refusalName(refusal)}: ${refusalMeaning(refusal)}${place ? `. The first bad point is point ${place}.` : ""}`;
  byId("samples-table").hidden = file === null;
  const rows = file ? file.points.map((point, index) => pointRow(file, point, index + 1 === place, index + 1)) : [];
  byId("samples-rows").replaceChildren(...rows);
  byId("samples-message").textContent = file
    ? `Its grid message: number ${messageNumber(file.message) ?? "none"}, ${several(file.message.length, "byte", "bytes")}.` : "";
}

// The message and the points of a file whose shape the library has found right.
function partsOf(bytes) {
  const view = new DataView(bytes.buffer, bytes.byteOffset, bytes.byteLength);
  const head = TABLES.sizes.SAMPLES_HEAD;
  const length = view.getUint16(1);
  const points = [];
  for (let at = head + length; at < bytes.length; at += TABLES.sizes.SAMPLE_SIZE) {
    points.push({
      component: view.getUint8(at + 3), north: view.getBigInt64(at + 4),
      east: view.getBigInt64(at + 12), claimed: view.getBigInt64(at + 20),
    });
  }
  return { message: bytes.subarray(head, head + length), points };
}

function pointRow({ message }, { component, north, east, claimed }, firstBad, place) {
  const part = component < 3 ? shiftsAt(message, north, east)[component] : { refusal: refusalNumber("COMPONENT") };
  const right = part.refusal === 0 && BigInt(part.count) === claimed;
  const words = part.refusal !== 0 ? `refused ${refusalName(part.refusal)}` : grouped(part.count);
  return element("tr", { class: right ? "" : "bad", "data-place": place }, element("td", { class: "number" }, String(place)),
    element("td", {}, COMPONENTS[component]?.name ?? `component ${component}`),
    element("td", { class: "number" }, grouped(north)), element("td", { class: "number" }, grouped(east)),
    element("td", { class: "number" }, grouped(claimed)), element("td", { class: "number" }, words),
    element("td", {}, right ? "as claimed" : firstBad ? "differs, the first" : "differs"));
}
