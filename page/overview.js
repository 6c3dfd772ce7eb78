// What is in a recording, in a few numbers, and where there is no frame in it, what the file may be.
import { readHeader, refusalMeaning, refusalName } from "./library.js";
import { byId, element, grouped, several } from "./text.js";

export function showOverview(recording) {
  byId("summary").replaceChildren(...(recording.bare ? bareSummary(recording) : streamSummary(recording)));
  byId("strip-area").hidden = recording.bare || recording.bytes.length === 0;
  byId("key").hidden = byId("strip-area").hidden;
  const problem = recording.frames.length === 0 ? noFrameWords(recording) : [];
  byId("no-frame").hidden = problem.length === 0;
  byId("no-frame").replaceChildren(...problem);
}

function countKind(list, kind) {
  return list.reduce((sum, entry) => sum + (entry.kind === kind ? 1 : 0), 0);
}

function streamSummary({ frames, entries, bytes, outsideBytes, runs }) {
  const sound = countKind(frames, "sound");
  const crc = countKind(entries, "crc");
  const inRuns = runs ? `, in ${several(runs, "run", "runs")}` : "";
  return [
    fact(bytes.length, bytes.length === 1 ? "byte" : "bytes", "byte-count"),
    fact(frames.length, frames.length === 1 ? "frame" : "frames", "frame-count"),
    fact(sound, `${sound === 1 ? "message" : "messages"} 1021 to 1027 accepted`, "sound-count"),
    fact(countKind(frames, "refused"), "refused", "refused-count"),
    fact(outsideBytes, `${outsideBytes === 1 ? "byte" : "bytes"} outside frames${inRuns}`, "outside-count"),
    ...(runs ? [fact(crc, `${crc === 1 ? "candidate" : "candidates"} with a wrong CRC`, "crc-count"),
      fact(countKind(entries, "unfinished"), "not finished", "unfinished-count")] : []),
  ];
}

function bareSummary({ bytes, frames: [message] }) {
  const end = message.kind === "sound" ? `accepted as ${message.number}` : `refused as ${refusalName(message.refusal)}`;
  return [
    fact(bytes.length, bytes.length === 1 ? "byte" : "bytes", "byte-count"),
    element("p", { class: "fact-words", id: "bare-words" }, `no frame: taken as one bare message, ${end}`),
  ];
}

function fact(number, words, id) {
  return element("p", { class: "fact" }, element("b", { id }, grouped(number)), ` ${words}`);
}

function noFrameWords({ bytes, entries }) {
  const { refusal } = readHeader(bytes);
  const name = element("b", { id: "no-frame-refusal" }, refusalName(refusal));
  const words = [bytes.length === 0 ? "The file is empty." : "No whole frame with a right CRC is in this file.",
    " As a bare message it is refused as ", name, ` (${refusal}): ${refusalMeaning(refusal)}.`];
  if (bytes.length > 0 && entries.every(({ kind }) => kind === "noise")) {
    words.push(" Nothing in it begins as a frame does, so it is probably no recording of RTCM messages.");
  }
  return words;
}
