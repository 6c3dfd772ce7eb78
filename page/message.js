// One message: its fields, and its bytes with the chosen field's bits marked.
import { showBytes } from "./bytes.js";
import { messageName } from "./counts.js";
import { messageFields, uncheckedFields } from "./fields.js";
import { entryWords } from "./frames.js";
import { refusalMeaning, refusalName } from "./library.js";
import { outsideMessage, outsideTitle, outsideWords } from "./outside_words.js";
import { isOutside, isOwnNumber, messageNumber, messageOf } from "./recording.js";
import { byId, element, fieldName, grouped, several } from "./text.js";

const shown = { recording: null, entry: null, message: null, fields: null, chosen: -1 };

// Gives the fields of an accepted message, or null.
export function showMessage(recording, entry) {
  const outside = isOutside(entry);
  const message = outside ? outsideMessage(recording, entry) : messageOf(recording, entry);
  const number = outside ? messageNumber(message) : entry.number;
  const accepted = entry.kind === "sound";
  Object.assign(shown, { recording, entry, message, fields: null, chosen: -1 });
  if (accepted) shown.fields = messageFields(message, number);
  else if (isOwnNumber(number) && (outside || entry.kind === "refused")) shown.fields = uncheckedFields(message, number);
  byId("message-title").textContent = outside ? outsideTitle(entry) : `Message ${number ?? "without a number"}`;
  byId("message-name").textContent = outside ? "" : messageName(number);
  byId("message-facts").textContent = messageFacts(entry);
  byId("message-refusal").hidden = entry.kind !== "refused";
  if (entry.kind === "refused") byId("message-refusal").replaceChildren(...refusalWords(entry, shown.fields));
  byId("outside-why").hidden = !outside;
  byId("outside-why").classList.toggle("noise", entry.kind === "noise");
  byId("outside-why").textContent = outside ? outsideWords(recording, entry, shown.fields !== null) : "";
  byId("field-area").hidden = shown.fields === null;
  byId("field-table").classList.toggle("unchecked", !accepted);
  byId("field-rows").replaceChildren(...(shown.fields ? fieldRows() : []));
  byId("field-area").scrollTop = 0;
  chooseField(-1);
  return accepted ? shown.fields : null;
}

function messageFacts(entry) {
  const bytes = several(entry.length, "byte", "bytes");
  if (isOutside(entry)) return `${bytes} from place ${grouped(entry.at)}`;
  const place = entry.head === 0 ? "bare" : `frame at ${grouped(entry.at)}`;
  const other = entry.kind === "other" ? "; not 1021 to 1027, so its fields are not read" : "";
  return `${place}, ${bytes}, ${entryWords(entry)}${other}`;
}

function refusalWords(entry, fields) {
  const name = element("b", { id: "refusal-name" }, refusalName(entry.refusal));
  const words = [`Refused as `, name, ` (${entry.refusal}): ${refusalMeaning(entry.refusal)}.`];
  if (fields && refusalName(entry.refusal) === "LENGTH") {
    const called = Math.ceil(fields.called / 8);
    words.push(` It has ${several(entry.length, "byte", "bytes")}, and its own counters call for ${called}.`);
  }
  if (fields) {
    words.push(" The library gives no field of it.",
      " The fields below are its bits as they stand, read by this page and not checked.");
  }
  return words;
}

function fieldRows() {
  const { items, fill, called } = shown.fields;
  const rows = items.map((item, index) => fieldRow(item, index));
  if (fill.bits === 0) return rows;
  const words = called === undefined || fill.bits < 8 ? "Fill bits" : "Bits behind the last field";
  const digits = fill.bits < 8 ? bitDigits(shown.message, fill) : "";
  return [...rows, element("tr", { id: `field-${items.length}`, class: "field fill", onclick: () => chooseField(items.length) },
    element("td", {}), element("td", {}, words), element("td", { class: "number" }, bitsText(fill)),
    element("td", { class: "number raw" }, digits), element("td", {}, fillWords(digits)))];
}

function fieldRow(item, index) {
  const node = item.node === undefined ? [] : [element("span", { class: "node" }, `node ${item.node}`)];
  const note = item.shown.note ? [element("span", { class: "note" }, item.shown.note)] : [];
  const outside = item.outside ? [element("span", { class: "note outside-range" }, "outside its range")] : [];
  return element("tr", {
    id: `field-${index}`, class: item.present ? "field" : "field absent", "data-field": item.field,
    "data-node": item.node ?? null, onclick: () => chooseField(index),
  }, element("td", {}, item.field), element("td", {}, ...fieldName(item.name), " ", ...node),
  element("td", { class: "number" }, bitsText(item)),
  element("td", { class: "number raw" }, item.present ? item.raw : "\u2013"),
  element("td", { class: "value" }, element("span", { class: "amount" }, item.shown.value), " ", ...note, ...outside));
}

function bitDigits(message, { from, bits }) {
  return Array.from({ length: bits }, (_, index) => (message[(from + index) >> 3] >> (7 - ((from + index) & 7))) & 1).join("");
}

function fillWords(digits) {
  if (digits === "") return "";
  return digits.includes("1") ? element("span", { class: "outside-range" }, "must be zero") : "zero, as they must be";
}

function bitsText({ from, bits }) {
  if (bits === 0) return "\u2013";
  return bits === 1 ? String(from) : `${from}\u2013${from + bits - 1}`;
}

function chooseField(index) {
  shown.chosen = index;
  const { fields, recording, entry, message } = shown;
  const parts = fields ? [...fields.items, fields.fill] : [];
  byId("field-rows").querySelectorAll("tr").forEach((row, place) => {
    if (place === index) row.setAttribute("aria-current", "true");
    else row.removeAttribute("aria-current");
  });
  const marked = parts[index] ?? null;
  showBytes(recording, entry, message, marked, (bit) => {
    const found = parts.findIndex((part) => bit < part.from + part.bits && part.bits > 0);
    chooseField(found);
    byId(`field-${found}`)?.scrollIntoView({ block: "nearest" });
  });
  byId("bytes-words").textContent = marked && marked.bits > 0
    ? `${marked.field ?? "Fill"}: bits ${bitsText(marked)} of ${8 * message.length}`
    : several(entry.size, "byte", "bytes") + (entry.size > message.length ? ", the frame\u2019s own in italics" : "")
      + (parts.length ? "; choose a field to mark its bits" : "");
}

export function moveField(event) {
  const move = { ArrowDown: 1, ArrowUp: -1, Home: -Infinity, End: Infinity }[event.key];
  if (move === undefined || !shown.fields) return;
  event.preventDefault();
  const most = shown.fields.items.length - (shown.fields.fill.bits > 0 ? 0 : 1);
  chooseField(Math.max(0, Math.min(most, shown.chosen + move)));
  byId(`field-${shown.chosen}`)?.scrollIntoView({ block: "nearest" });
}
