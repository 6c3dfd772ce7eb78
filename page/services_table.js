// The table of services: one row for each system identification number, one column for each group of its messages.
import { fieldOf, messageFields, utilizedNumbers } from "./fields.js";
import { refusalName } from "./library.js";
import { messageOf } from "./recording.js";
import { GROUPS, serviceWith, servicesOf } from "./services.js";
import { byId, element, grouped, several, shortSexagesimal } from "./text.js";

const table = { recording: null, services: [], choose: () => {} };

// choose(entry) is called with the message that is chosen in the table.
export function startServices(choose) {
  table.choose = choose;
}

export function showServices(recording) {
  table.recording = recording;
  table.services = recording.bare ? [] : servicesOf(recording);
  const known = table.services.filter(({ sin }) => sin !== null);
  byId("services").hidden = recording.bare || table.services.length === 0;
  byId("services-count").textContent = `${several(known.length, "system identification number", "system identification numbers")}`
    + " with accepted messages; of each group the message that came last is the one a rover keeps";
  byId("service-rows").replaceChildren(...table.services.map(serviceRow));
}

// Marks the service of the entry that is chosen.
export function markService(entry) {
  const own = serviceWith(table.services, table.recording, entry);
  table.services.forEach((service, index) => {
    byId("service-rows").children[index].toggleAttribute("aria-current", service === own);
    for (const button of byId("service-rows").children[index].querySelectorAll("button")) {
      button.setAttribute("aria-pressed", String(Number(button.dataset.at) === entry.at));
    }
  });
}

function serviceRow(service) {
  const utilized = utilizedOf(service);
  return element("tr", { "data-sin": service.sin ?? "none" },
    element("th", { scope: "row" }, service.sin === null ? "others" : String(service.sin)),
    ...(service.sin === null ? [element("td", { colspan: GROUPS.length, class: "says" }, othersWords(service))]
      : service.groups.map((group, index) => groupCell(group, index, utilized))),
    refusedCell(service));
}

// The fields of the last accepted message of a group, or null.
function lastFields({ last }) {
  return last && messageFields(messageOf(table.recording, last), last.number);
}

function utilizedOf({ groups: [transformation] }) {
  const fields = lastFields(transformation);
  return fields ? utilizedNumbers(fields) : null;
}

function entryButton(entry, words) {
  return element("button", { type: "button", "data-at": entry.at, "data-number": entry.number, onclick: () => table.choose(entry) }, words);
}

function groupCell(group, index, utilized) {
  const named = GROUPS[index].numbers.filter((number) => utilized?.includes(number));
  if (group.accepted === 0) {
    const missing = named.length ? [element("span", { class: "error" }, `DF148 names ${named.join(", ")}: none accepted`)] : ["none"];
    return element("td", { "data-group": GROUPS[index].name, class: "none" }, ...missing);
  }
  const { last, accepted, changes, lastChange } = group;
  const changed = changes === 1 ? "changed" : `${grouped(changes)} changes, last`;
  const often = accepted === 1 ? "once"
    : `${grouped(accepted)} times, ${changes === 0 ? "always the same" : `${changed} at ${grouped(lastChange.at)}`}`;
  const notNamed = index > 0 && utilized && !utilized.includes(last.number)
    ? [element("span", { class: "error" }, " not named by DF148")] : [];
  return element("td", { "data-group": GROUPS[index].name, "data-accepted": accepted, "data-changes": changes },
    element("div", { class: "service-line" }, entryButton(last, `${last.number} last at ${grouped(last.at)}`),
      element("span", { class: "hint" }, often)),
    element("div", { class: "says" }, briefly(lastFields(group), last.number), ...notNamed));
}

function refusedCell({ refused }) {
  if (refused.length === 0) return element("td", { "data-group": "Refused", "data-refused": 0, class: "none" }, "none");
  const last = refused.at(-1).entry;
  return element("td", { "data-group": "Refused", "data-refused": refused.length },
    element("div", { class: "service-line" }, entryButton(last, `${last.number} last at ${grouped(last.at)}`),
      element("span", { class: "hint" }, `${grouped(refused.length)} in all`)),
    element("div", { class: "says refused-words" }, counted(refused.map(({ entry }) => entry.refusal), refusalName)));
}

const NOT_READABLE = 256;

function othersWords({ refused }) {
  const sins = counted(refused.map(({ sin }) => sin ?? NOT_READABLE), (sin) => (sin === NOT_READABLE ? "not readable" : `SIN ${sin}`));
  return `Refused messages of no system above; by their bits: ${sins}`;
}

// How often each number is in a list, in words.
function counted(list, words) {
  const counts = new Map();
  for (const number of list) counts.set(number, (counts.get(number) ?? 0) + 1);
  return [...counts].sort(([one], [other]) => one - other)
    .map(([number, count]) => `${words(number)} \u00d7 ${grouped(count)}`).join(", ");
}

// What a message says, in one line.
function briefly(fields, number) {
  const item = (field) => fieldOf(fields, field);
  const shown = (field) => item(field).shown.value;
  if (number <= 1022) return `${shown("DF144")} to ${shown("DF146")}, ${item("DF150").shown.note || `DF150 is ${item("DF150").value}`}`;
  if (number >= 1025) return item("DF170").shown.note || `projection type ${item("DF170").value}`;
  const parts = [["DF190", "horizontal"], ["DF191", "height"]].filter(([field]) => item(field).value === 1n);
  return `${gridPlace(fields, number)}; ${parts.map(([, words]) => words).join(" and ") || "no shift"}`;
}

function gridPlace(fields, number) {
  const plane = number === 1024;
  const [north, east, northSpacing, eastSpacing] = [0, 1, 2, 3].map((place) => fieldOf(fields, `DF${(plane ? 202 : 192) + place}`));
  if (!north.present || !east.present) return "origin not available";
  if (plane) return `N ${north.shown.value}, E ${east.shown.value}, nodes ${northSpacing.shown.value} by ${eastSpacing.shown.value}`;
  const degrees = ({ value }, letters) => shortSexagesimal(Number(value) * 5000, letters);
  return `${degrees(north, "NS")} ${degrees(east, "EW")}, nodes ${northSpacing.shown.value} by ${eastSpacing.shown.value}`;
}
