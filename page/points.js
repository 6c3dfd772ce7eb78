// Points as text: a north and an east in each line, or the text of the program report (docs/REPORT.md).
import { nearestStep, wholeUnits } from "./text.js";

const MOST_LINE = 900;
const MOST_MESSAGE = 400;

// How the two numbers of a line are taken, by form: their decimals, and the steps in one unit.
const UNITS = {
  degrees: { decimals: 9, steps: 36000000n, words: "degrees" },
  metres: { decimals: 9, steps: 1000n, words: "metres" },
  steps: { decimals: 0, steps: 1n, words: "whole steps" },
};

function in64Bits(number) {
  return BigInt.asIntN(64, number) === number;
}

function badLine(line, words) {
  return { problem: { line, words } };
}

// { north, east } as BigInt64Array, or { problem: { line, words } } for the first bad line, counted from 1.
// Empty lines are left out. Between the numbers stand spaces, tabs, a comma or a semicolon.
export function readPoints(text, form) {
  const { decimals, steps, words } = UNITS[form];
  const [north, east] = [[], []];
  const lines = text.replace(/^\ufeff/, "").split(/\r\n|\n|\r/);
  for (const [index, line] of lines.entries()) {
    if (line.trim() === "") continue;
    const parts = line.trim().split(/\s*[,;]\s*|\s+/);
    const units = parts.map((part) => wholeUnits(part, decimals));
    if (parts.length !== 2 || units.includes(null)) {
      const most = decimals ? ` with up to ${decimals} decimals` : "";
      return badLine(index + 1, `two numbers are wanted, north and east, ${words}${most}`);
    }
    const place = units.map((unit) => nearestStep(unit, steps, decimals));
    if (!place.every(in64Bits)) return badLine(index + 1, "a number is past 64 bits");
    north.push(place[0]);
    east.push(place[1]);
  }
  return { north: BigInt64Array.from(north), east: BigInt64Array.from(east) };
}

// The text of the program report: { message, component, north, east } or { problem }.
export function readReportText(text) {
  const lines = text.split("\n");
  while (lines.at(-1) === "") lines.pop();
  const long = lines.findIndex((line) => new TextEncoder().encode(line).length > MOST_LINE);
  const limit = long < 0 ? lines.length : long;
  const message = limit > 0 ? messageDigits(lines[0]) : null;
  if (message === null) return badLine(1, "the message is wanted, in lower case hexadecimal digits, or -");
  const component = limit > 1 && /^\d+$/.test(lines[1]) ? BigInt(lines[1]) : 256n;
  if (component > 255n) return badLine(2, "the component is wanted, 0 north-south, 1 east-west or 2 height");
  const [north, east] = [new BigInt64Array(Math.max(0, lines.length - 2)), new BigInt64Array(Math.max(0, lines.length - 2))];
  for (let index = 2; index < lines.length; index += 1) {
    const found = index < limit ? /^(-?\d+) (-?\d+)$/.exec(lines[index]) : null;
    const place = found ? [BigInt(found[1]), BigInt(found[2])] : null;
    if (!place?.every(in64Bits)) {
      return badLine(index + 1, "two whole numbers of 64 bits are wanted, north and east, with one space between them");
    }
    [north[index - 2], east[index - 2]] = place;
  }
  return { message, component: Number(component), north, east };
}

function messageDigits(line) {
  if (line === "-") return new Uint8Array(0);
  if (!/^(?:[0-9a-f]{2})+$/.test(line) || line.length > 2 * MOST_MESSAGE) return null;
  return Uint8Array.from(line.match(/../g), (digits) => parseInt(digits, 16));
}

// Whether a text looks like one of the program report: its first line is a message in hexadecimal digits.
export function looksLikeReportText(text) {
  return /^[0-9a-f]{20,}\r?\n/i.test(text);
}
