// Counts by message number, by system identification number and by refusal.
import { byId, element, grouped } from "./text.js";
import { refusalName } from "./library.js";

const OWN_NUMBERS = [1021, 1022, 1023, 1024, 1025, 1026, 1027];

export function showCounts({ frames, bare }) {
  byId("counts-area").hidden = bare || frames.length === 0;
  const kinds = (kind) => frames.filter((frame) => frame.kind === kind);
  byId("counts").replaceChildren(
    countTable("by-sin", "Accepted, by system identification number (SIN)", "SIN", kinds("sound"), (frame) => frame.sin, String),
    countTable("by-refusal", "Refused, by refusal", "refusal", kinds("refused"), (frame) => frame.refusal,
      (refusal) => `${refusal} ${refusalName(refusal)}`),
    otherCounts(kinds("other")));
}

// One row for each group that occurs and one for all, one column for each number from 1021 to 1027 and one for all.
function countTable(id, caption, corner, frames, groupOf, groupWords) {
  const counts = new Map();
  const add = (group, number) => {
    if (!counts.has(group)) counts.set(group, new Map());
    counts.get(group).set(number, (counts.get(group).get(number) ?? 0) + 1);
  };
  for (const frame of frames) {
    for (const group of [groupOf(frame), "all"]) [frame.number, "all"].forEach((number) => add(group, number));
  }
  const groups = [...counts.keys()].filter((group) => group !== "all").sort((one, other) => one - other);
  const heads = [corner, ...OWN_NUMBERS, "all"].map((text) => element("th", { scope: "col" }, String(text)));
  const row = (group, words) => element("tr", { "data-group": group, class: group === "all" ? "total" : "" },
    element("th", { scope: "row" }, words),
    ...[...OWN_NUMBERS, "all"].map((number) => countCell(counts.get(group)?.get(number) ?? 0)));
  return element("table", { class: "counts", id }, element("caption", {}, caption),
    element("thead", {}, element("tr", {}, ...heads)),
    element("tbody", {}, ...groups.map((group) => row(group, groupWords(group))), row("all", "all")));
}

function countCell(count) {
  return element("td", { class: count ? "" : "none" }, count ? grouped(count) : "\u00b7");
}

function otherCounts(frames) {
  const counts = new Map();
  for (const { number } of frames) counts.set(number, (counts.get(number) ?? 0) + 1);
  const list = [...counts].sort(([one], [other]) => (one ?? -1) - (other ?? -1));
  const items = list.map(([number, count]) => element("tr", { "data-number": number ?? "-" },
    element("th", { scope: "row" }, number === null ? "no number" : String(number)),
    element("td", {}, grouped(count)), element("td", { class: "name" }, messageName(number))));
  return element("table", { class: "counts others", id: "by-number" }, element("caption", {}, "Other numbers, which are not read"),
    element("tbody", {}, ...(items.length ? items : [element("tr", {}, element("td", { class: "none" }, "none"))])));
}

// The name that document 000 prints for a message number, or nothing.
export function messageName(number) {
  if (number === null) return "";
  const range = Object.keys(TABLES.messages).find((key) => {
    const [first, last] = key.split("-").map(Number);
    return number >= first && number <= (last ?? first);
  });
  return range === undefined ? "" : TABLES.messages[range];
}
