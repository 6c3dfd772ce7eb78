// What can be said of bytes outside frames.
import { writeFrame } from "./library.js";
import { candidatesInside } from "./outside.js";
import { messageNumber } from "./recording.js";
import { grouped, hexadecimal, several } from "./text.js";

const TITLES = { crc: "Wrong CRC", unfinished: "Not finished", noise: "Noise" };

export function outsideTitle({ kind }) {
  return TITLES[kind];
}

// The message in a candidate as far as it is there; of noise all bytes.
export function outsideMessage({ bytes }, { kind, at, size, called }) {
  if (kind === "noise") return bytes.subarray(at, at + size);
  const { FRAME_HEAD: head, FRAME_TAIL: tail } = TABLES.sizes;
  return bytes.subarray(Math.min(at + head, at + size), Math.min(at + size, Math.max(at + head, at + called - tail)));
}

// unchecked says whether the bits of its message are shown as fields.
export function outsideWords(recording, entry, unchecked) {
  const { kind, at, size } = entry;
  if (kind === "noise") return "No byte here is a D3 with six zero bits behind it, so no frame begins here.";
  const more = candidatesInside(recording.bytes, { at, size });
  return [
    kind === "crc" ? crcWords(recording, entry) : unfinishedWords(recording, entry),
    numberWords(outsideMessage(recording, entry)),
    more ? `Among these bytes ${several(more, "more candidate begins", "more candidates begin")}, and none is a frame.` : "",
    unchecked ? "The fields below are its bits as they stand, read by this page and not checked." : "",
  ].filter((words) => words !== "").join(" ");
}

function numberWords(message) {
  const number = messageNumber(message);
  return number === null ? "" : `The message in it would have the number ${number}.`;
}

function hexadecimals(bytes) {
  return [...bytes].map(hexadecimal).join("");
}

// The CRC is that of the frame that the library writes for the same message.
function crcWords({ bytes }, { at, size, called }) {
  const { FRAME_HEAD: head, FRAME_TAIL: tail } = TABLES.sizes;
  const end = at + called;
  const wanted = writeFrame(bytes.subarray(at + head, end - tail)).bytes.subarray(-tail);
  const words = `It begins as a frame of ${several(called, "byte", "bytes")} does, but its CRC is wrong: it has `
    + `${hexadecimals(bytes.subarray(end - tail, end))}, and its bytes give ${hexadecimals(wanted)}.`;
  return size < called
    ? `${words} Only ${several(size, "byte stands", "bytes stand")} here: the rest, to place ${grouped(end)}, is taken by what follows, as where bytes were lost.`
    : words;
}

function unfinishedWords({ bytes }, { at, called }) {
  const { FRAME_HEAD: head } = TABLES.sizes;
  if (at + head > bytes.length) return "It begins as a frame does, and the recording ends before its length.";
  return `It begins as a frame of ${several(called, "byte", "bytes")} does, and the recording ends after ${grouped(bytes.length - at)} of them.`;
}
