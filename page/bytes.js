// The bytes of an entry in hexadecimal, with the bits of one field marked.
import { byId, element, grouped, hexadecimal } from "./text.js";

const MOST_BYTES = 1100;
const MOST_BITS = 64;

// message is the part of the entry that fields are in; marked is { from, bits } in its bits, or null. choose(bit) is
// called with the first bit of a byte that is chosen.
export function showBytes(recording, entry, message, marked, choose) {
  const all = recording.bytes.subarray(entry.at, entry.at + Math.min(entry.size, MOST_BYTES));
  const head = message.byteOffset - all.byteOffset;
  const cells = [...all].map((byte, index) => {
    const own = index - head;
    const outer = own < 0 || own >= message.length;
    const cell = element("span", {
      class: outer ? "byte outer" : "byte",
      "data-byte": outer ? null : own,
      title: own < 0 ? "frame: D3 and length" : outer ? "frame: CRC-24Q" : `byte ${own} of the message`,
      onclick: () => { if (!outer) choose(8 * own); },
    }, hexadecimal(byte));
    if (!outer && marked) cell.style.background = markedPart(own, marked);
    return cell;
  });
  byId("bytes").replaceChildren(...cells);
  byId("bytes-cut").textContent = entry.size > MOST_BYTES
    ? `The first ${grouped(MOST_BYTES)} of ${grouped(entry.size)} bytes.` : "";
  byId("bits").replaceChildren(...(marked && marked.bits > 0 ? markedBits(message, marked) : []));
}

// A background that covers the marked bits of one byte.
function markedPart(byte, marked) {
  const first = Math.max(0, marked.from - 8 * byte);
  const last = Math.min(8, marked.from + marked.bits - 8 * byte);
  if (first >= last) return "";
  const [left, right] = [first, last].map((bit) => `${(bit * 100) / 8}%`);
  return `linear-gradient(90deg, transparent ${left}, var(--marked) ${left}, var(--marked) ${right}, transparent ${right})`;
}

function markedBits(message, { from, bits }) {
  const shown = Math.min(bits, MOST_BITS);
  const firstByte = from >> 3;
  const lastByte = (from + shown - 1) >> 3;
  const groups = [];
  for (let byte = firstByte; byte <= lastByte; byte += 1) {
    const text = message[byte].toString(2).padStart(8, "0");
    const cells = [...text].map((digit, bit) => {
      const place = 8 * byte + bit;
      return element("span", { class: place >= from && place < from + bits ? "bit on" : "bit" }, digit);
    });
    groups.push(element("span", { class: "bit-group" }, ...cells));
  }
  const rest = bits > shown ? [` and ${bits - shown} more`] : [];
  return [...groups, ...rest];
}
