// The fields of a message: which bits they have, their raw values and their values with units.
import { readFields } from "./library.js";
import { grouped, hexadecimal, sexagesimal, times, unitSign, withDecimals } from "./text.js";

// One item for each field in wire order, the characters of a name being one item; at is its place in the row.
// counted(item) gives the value of a name's counter; a field given as last is the last one placed.
function placedFields(number, counted, last) {
  const layout = TABLES.layouts[number];
  const nodes = layout.filter((entry) => entry.repeated === "nodes");
  const placed = [];
  let from = 0;
  let at = 0;
  const place = (field, node, characters) => {
    const bits = TABLES.fields[field].width * (characters ?? 1);
    placed.push({ field, node, characters, at, from, bits });
    from += bits;
    at += characters ?? 1;
  };
  for (const entry of layout) {
    if (entry.repeated === "name") place(entry.field, undefined, counted(placed.at(-1)));
    else if (entry.repeated === "") place(entry.field);
    else if (entry === nodes[0]) {
      for (let node = 1; node <= 16; node += 1) nodes.forEach((part) => place(part.field, node));
    }
    if (entry.field === last) break;
  }
  return { placed, bits: from };
}

// The items of an accepted message with their values as the library gives them.
export function messageFields(message, number) {
  const row = readFields(message);
  const { placed, bits } = placedFields(number, (item) => Number(row.values[item.at]));
  const items = placed.map((item) => described(item, {
    values: row.values.slice(item.at, item.at + (item.characters ?? 1)),
    present: item.characters !== undefined || row.present[item.at],
  }));
  return { items, fill: { from: bits, bits: 8 * message.length - bits } };
}

// The items of a refused message as far as its bytes reach, read by this page; no promise of the library is on them.
export function uncheckedFields(message, number) {
  const end = 8 * message.length;
  const { placed, bits } = placedFields(number, (item) =>
    item.from + item.bits <= end ? Number(readUnsigned(message, item)) : 0);
  const whole = placed.filter((item) => item.from + item.bits <= end);
  const items = whole.map((item) => {
    const values = rawValues(message, item);
    const { signed, width } = TABLES.fields[item.field];
    const present = !(signed && values[0] === -(1n << BigInt(width - 1)));
    const outside = present && outOfRange(item.field, values[0]);
    return { ...described(item, { values: present ? values : [0n], present }), outside };
  });
  return { items, fill: { from: Math.min(bits, end), bits: Math.max(0, end - bits) }, called: bits };
}

function readUnsigned(message, { from, bits }) {
  let value = 0n;
  for (let bit = from; bit < from + bits; bit += 1) {
    value = 2n * value + BigInt((message[bit >> 3] >> (7 - (bit & 7))) & 1);
  }
  return value;
}

function rawValues(message, item) {
  const { width, signed } = TABLES.fields[item.field];
  return Array.from({ length: item.characters ?? 1 }, (_, index) => {
    const value = readUnsigned(message, { from: item.from + index * width, bits: width });
    return signed ? BigInt.asIntN(width, value) : value;
  });
}

function outOfRange(field, value) {
  if (value === undefined) return false;
  const { smallest, greatest } = TABLES.fields[field];
  return value < BigInt(smallest) || value > BigInt(greatest);
}

function described(item, { values, present }) {
  const about = TABLES.fields[item.field];
  return {
    ...item,
    name: about.name,
    type: about.type,
    present,
    value: values[0],
    values,
    raw: item.characters === undefined ? grouped(present ? values[0] : 0n) : values.map((v) => hexadecimal(Number(v))).join(" "),
    shown: item.characters === undefined ? shownValue(item.field, values[0], present) : shownText(values),
  };
}

function shownText(values) {
  const text = values.map((value) => (value >= 32n && value < 127n ? String.fromCharCode(Number(value)) : "\u00b7")).join("");
  return { value: `\u201c${text}\u201d`, note: "" };
}

// { value, note }: the value with its unit, and what more there is to say about it.
function shownValue(field, value, present) {
  if (!present) return { value: "not available", note: "" };
  const { resolution, unit, base, codes, flags } = TABLES.fields[field];
  if (Object.keys(flags).length) return flagged(value, flags);
  const own = times(value, resolution);
  const note = meaning(codes, value) || (base ? baseNote(value, resolution, base, unit) : "")
    || (unit === "arc second" && Number(resolution) >= 0.5 ? degreesNote(value, resolution) : "")
    || (field === "DF051" && value > 0n ? dayNote(value) : "");
  return { value: grouped(own) + unitSign(unit), note };
}

function meaning(codes, value) {
  for (const [key, text] of Object.entries(codes)) {
    const [first, last] = key.split("..").map(BigInt);
    if (value >= first && value <= (last ?? first)) return text;
  }
  return "";
}

function baseNote(value, resolution, base, unit) {
  const decimals = resolution.split(".")[1].length;
  const units = BigInt(resolution.replace(".", "")) * value + BigInt(base) * 10n ** BigInt(decimals);
  return `with ${grouped(base)}: ${grouped(withDecimals(units, decimals))}${unitSign(unit)}`;
}

// Degrees, minutes and seconds with the decimals of the resolution.
function degreesNote(value, resolution) {
  const steps = Number(value) * Number(resolution) * 10000;
  return (steps < 0 ? "\u2212" : "") + sexagesimal(Math.abs(steps), ["", ""], (resolution.split(".")[1] ?? "").length).trim();
}

function dayNote(value) {
  return new Date((Number(value) - 40587) * 86400000).toISOString().slice(0, 10);
}

// The bits of DF148: document 000 does not say which end Bit(1) is; here it is the first on the wire.
function flagged(value, flags) {
  const set = setFlags(value, flags).map((place) => (flags[place] in TABLES.layouts ? flags[place] : `Bit(${place})`));
  return { value: flagBits(value, flags), note: `${set.join(", ") || "none"}, the first bit being Bit(1)` };
}

function flagBits(value, flags) {
  return value.toString(2).padStart(Object.keys(flags).length, "0");
}

function setFlags(value, flags) {
  const bits = flagBits(value, flags);
  return Object.keys(flags).filter((place) => bits[place - 1] === "1");
}

// The message numbers that DF148 of a 1021 or 1022 says are utilized.
export function utilizedNumbers(fields) {
  const { flags } = TABLES.fields.DF148;
  return setFlags(fieldOf(fields, "DF148").value, flags).map((place) => flags[place])
    .filter((number) => number in TABLES.layouts).map(Number);
}

// The first item of a DF number.
export function fieldOf(fields, field) {
  return fields.items.find((item) => item.field === field);
}

// The system identification number in the bits of a message that may be refused, or null where they are not there.
export function claimedSin(message, number) {
  const end = 8 * message.length;
  const { placed } = placedFields(number, (item) =>
    item.from + item.bits <= end ? Number(readUnsigned(message, item)) : 0, "DF147");
  const sin = placed.at(-1);
  return sin.from + sin.bits <= end ? Number(readUnsigned(message, sin)) : null;
}

// The row of a message without names from values by DF number; a field that is not given is not available.
export function rowOf(number, given) {
  const { placed } = placedFields(number, () => 0);
  return {
    values: BigInt64Array.from(placed, ({ field }) => given[field] ?? 0n),
    present: Uint8Array.from(placed, ({ field }) => (field in given ? 1 : 0)),
  };
}
