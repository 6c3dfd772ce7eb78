// The messages of one system identification number (SIN) put together as a service.
import { claimedSin } from "./fields.js";
import { messageOf } from "./recording.js";

// The groups of a table's keys: of each a rover keeps the message that came last.
export const GROUPS = [
  { name: "Transformation", numbers: [1021, 1022] },
  { name: "Grid", numbers: [1023, 1024] },
  { name: "Projection", numbers: [1025, 1026, 1027] },
];

// [{ sin, groups, refused }] by rising SIN, one for each SIN of an accepted message, and where there are refused messages of
// no such SIN, a last one with sin null for these.
// A group is { accepted, last, changes, lastChange }: how many were accepted, the last of them, and how often one had
// other bytes than the one before it. refused lists { entry, sin }: that SIN is read by this page from the bits of a
// refused message, null where they do not reach it, and is no promise of the library.
export function servicesOf(recording) {
  const services = new Map();
  for (const entry of recording.frames) {
    if (entry.kind !== "sound") continue;
    if (!services.has(entry.sin)) services.set(entry.sin, emptyService(entry.sin));
    accept(recording, services.get(entry.sin), entry);
  }
  const rest = emptyService(null);
  for (const entry of recording.frames) {
    if (entry.kind !== "refused") continue;
    const sin = claimedSin(messageOf(recording, entry), entry.number);
    (services.get(sin) ?? rest).refused.push({ entry, sin });
  }
  const sorted = [...services.values()].sort((one, other) => one.sin - other.sin);
  return rest.refused.length ? [...sorted, rest] : sorted;
}

function emptyService(sin) {
  return { sin, groups: GROUPS.map(emptyGroup), refused: [] };
}

function emptyGroup() {
  return { accepted: 0, last: null, changes: 0, lastChange: null };
}

export function groupIndex(number) {
  return GROUPS.findIndex(({ numbers }) => numbers.includes(number));
}

function accept(recording, service, entry) {
  const group = service.groups[groupIndex(entry.number)];
  if (group.last && !sameBytes(messageOf(recording, group.last), messageOf(recording, entry))) {
    group.changes += 1;
    group.lastChange = entry;
  }
  group.accepted += 1;
  group.last = entry;
}

function sameBytes(one, other) {
  return one.length === other.length && one.every((byte, index) => byte === other[index]);
}

// The service that an entry belongs to, or undefined.
export function serviceWith(services, recording, entry) {
  if (entry.kind === "sound") return services.find(({ sin }) => sin === entry.sin);
  if (entry.kind !== "refused") return undefined;
  const claimed = claimedSin(messageOf(recording, entry), entry.number);
  return services.find(({ sin }) => sin === claimed) ?? services.at(-1);
}
