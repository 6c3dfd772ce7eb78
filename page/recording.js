// A file as a list of entries: frames, or one bare message, and the bytes outside frames.
import { readFrames, readHeader } from "./library.js";
import { outsideParts } from "./outside.js";

const FIRST = 1021;
const LAST = 1027;

export function isOwnNumber(number) {
  return number >= FIRST && number <= LAST;
}

function numberOf(first, second) {
  return first * 16 + (second >> 4);
}

// The number in the first twelve bits, or null where there are under two bytes.
export function messageNumber(message) {
  return message.length < 2 ? null : numberOf(message[0], message[1]);
}

// The bytes of an entry without those of its frame.
export function messageOf({ bytes }, { at, head, length }) {
  return bytes.subarray(at + head, at + head + length);
}

// { bytes, bare, entries, frames, runs, outsideBytes }, entries in order of place, the parts outside frames among them.
// An entry is { at, size, length, head, number, kind, sin, refusal }: at and size are its bytes, head those of the frame
// before its message. kind is sound, refused or other, and outside frames crc, unfinished or noise.
export function readRecording(bytes) {
  const found = readFrames(bytes, (first, second) => isOwnNumber(numberOf(first, second)));
  if (found.length === 0 && bytes.length <= TABLES.sizes.MOST_FRAMED && isOwnNumber(messageNumber(bytes))) {
    const entry = entryOf(bytes, { at: 0, length: bytes.length, ...readHeader(bytes) }, 0);
    return { bytes, bare: true, entries: [entry], frames: [entry], runs: 0, outsideBytes: 0 };
  }
  const frames = found.map((frame) => entryOf(bytes, frame, TABLES.sizes.FRAME_HEAD));
  const entries = [];
  let [from, runs, outsideBytes] = [0, 0, 0];
  for (const frame of [...frames, null]) {
    const end = frame?.at ?? bytes.length;
    if (end > from) {
      runs += 1;
      outsideBytes += end - from;
      for (const part of outsideParts(bytes, from, end)) entries.push(part);
    }
    if (frame) entries.push(frame);
    from = frame ? frame.at + frame.size : end;
  }
  return { bytes, bare: false, entries, frames, runs, outsideBytes };
}

function entryOf(bytes, { at, length, refusal, sin }, head) {
  const size = length + (head === 0 ? 0 : head + TABLES.sizes.FRAME_TAIL);
  const number = length < 2 ? null : numberOf(bytes[at + head], bytes[at + head + 1]);
  const kind = !isOwnNumber(number) ? "other" : refusal === 0 ? "sound" : "refused";
  return { at, size, length, head, number, kind, sin: kind === "sound" ? sin : null, refusal };
}

export function isOutside({ kind }) {
  return kind === "crc" || kind === "unfinished" || kind === "noise";
}

// The place in a list of entries of the last one that begins at or before a byte, -1 where there is none.
export function indexAt(entries, place) {
  let [low, high] = [0, entries.length];
  while (low < high) {
    const middle = (low + high) >> 1;
    if (entries[middle].at <= place) low = middle + 1;
    else high = middle;
  }
  return low - 1;
}

// The same lines as the program frames prints.
export function recordingText({ frames, bare, outsideBytes }) {
  const lines = frames.map(({ at, length, number, kind, sin, refusal }) => {
    const end = kind === "sound" ? ` sin ${sin}` : kind === "refused" ? ` refused ${refusal}` : "";
    return `${at} ${length} ${number ?? "-"}${end}`;
  });
  return bare ? "" : [...lines, `${frames.length} frames, ${outsideBytes} bytes outside frames`, ""].join("\n");
}
