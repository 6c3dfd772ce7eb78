// The only file that touches the module's memory. Each function copies its input in, makes calls of the library, and
// copies the answer out as plain JavaScript values. The module is wasm64: pointers and sizes are BigInt.
// A struct is always returned through a pointer that is the first argument, and lies there as in C.

const PAGE_BYTES = 65536;
let exported;
let memory = new DataView(new ArrayBuffer(0));

export async function startLibrary() {
  const bytes = Uint8Array.from(atob(MODULE_BASE64), (character) => character.charCodeAt(0));
  exported = (await WebAssembly.instantiate(bytes, {})).instance.exports;
}

export function refusalName(refusal) {
  return TABLES.refusals[refusal].name;
}

export function refusalMeaning(refusal) {
  return TABLES.refusals[refusal].meaning;
}

export function refusalNumber(name) {
  return Number(Object.keys(TABLES.refusals).find((number) => TABLES.refusals[number].name === name));
}

// The memory as it is now: growing gives it a new buffer.
function view() {
  if (memory.buffer !== exported.memory.buffer) memory = new DataView(exported.memory.buffer);
  return memory;
}

// Lays out areas one behind the other from the end of the module's own data, each aligned to 16 bytes, and gives their
// places. An input is an array of bytes or of 64-bit numbers; a number is the size of an area that the call fills.
function areas(parts) {
  let next = Number(exported.__heap_base.value);
  const places = parts.map((part) => {
    const place = Math.ceil(next / 16) * 16;
    next = place + Math.max(1, typeof part === "number" ? part : part.byteLength);
    return place;
  });
  const missing = next - exported.memory.buffer.byteLength;
  if (missing > 0) exported.memory.grow(BigInt(Math.ceil(missing / PAGE_BYTES)));
  const all = new Uint8Array(exported.memory.buffer);
  parts.forEach((part, index) => {
    if (typeof part === "number") return;
    all.set(new Uint8Array(part.buffer, part.byteOffset, part.byteLength), places[index]);
  });
  return places;
}

function unsigned(place) {
  return Number(view().getBigUint64(place, true));
}

function bytesAt(place, length) {
  return new Uint8Array(exported.memory.buffer).slice(place, place + length);
}

function headerAt(answer) {
  return { refusal: view().getUint8(answer), sin: view().getUint8(answer + 4) };
}

// { refusal, sin } of one message.
export function readHeader(message) {
  const [answer, input] = areas([16, message]);
  exported.tarnoklej_read(BigInt(answer), BigInt(input), BigInt(message.length));
  return headerAt(answer);
}

// The frames of a whole recording: [{ at, length, refusal, sin }], at being the place of D3 and length the bytes of the
// message. Only messages for which wanted(first byte, second byte) holds are read; the others have refusal 0 and sin null.
export function readFrames(bytes, wanted) {
  const [answer, header, input] = areas([24, 16, bytes]);
  const need = refusalNumber("NEED");
  const { FRAME_HEAD: head, FRAME_TAIL: tail } = TABLES.sizes;
  const frames = [];
  for (let from = 0; ;) {
    exported.tarnoklej_find_frame(BigInt(answer), BigInt(input), BigInt(bytes.length), BigInt(from));
    const refusal = view().getUint8(answer);
    const at = unsigned(answer + 8);
    const length = unsigned(answer + 16);
    if (refusal === need) {
      from = at + 1;
    } else if (refusal !== 0) {
      return frames;
    } else {
      const frame = { at, length, refusal: 0, sin: null };
      if (length >= 2 && wanted(bytes[at + head], bytes[at + head + 1])) {
        exported.tarnoklej_read(BigInt(header), BigInt(input + at + head), BigInt(length));
        Object.assign(frame, headerAt(header));
      }
      frames.push(frame);
      from = at + head + length + tail;
    }
  }
}

// { refusal, values, present }: values are BigInt, 0n where present is false.
export function readFields(message) {
  const room = TABLES.sizes.MOST_FIELDS;
  const [values, present, input] = areas([8 * room, room, message]);
  const refusal = exported.tarnoklej_read_fields(
    BigInt(input), BigInt(message.length), BigInt(values), BigInt(room), BigInt(present), BigInt(room));
  const { buffer } = exported.memory;
  return {
    refusal,
    values: [...new BigInt64Array(buffer, values, room)],
    present: [...new Uint8Array(buffer, present, room)].map((byte) => byte === 1),
  };
}

// Three parts, north-south, east-west and height: [{ refusal, count, shift }]; north and east are whole steps.
export function shiftsAt(message, north, east) {
  const [answer, input] = areas([56, message]);
  exported.tarnoklej_shifts_at(
    BigInt(answer), BigInt(input), BigInt(message.length), BigInt(north), BigInt(east));
  return [0, 1, 2].map((part) => ({
    shift: view().getFloat64(answer + 8 * part, true),
    count: Number(view().getBigInt64(answer + 24 + 8 * part, true)),
    refusal: view().getUint8(answer + 48 + part),
  }));
}

// { refusal, counts }: one component at count places, each one step further east; counts are BigInt, and are there until
// the next call.
export function shiftRow(message, component, north, east, step, count) {
  const [row, input] = areas([8 * count, message]);
  const refusal = exported.tarnoklej_shift_row(
    BigInt(input), BigInt(message.length), component, BigInt(north), BigInt(east), BigInt(step), BigInt(count),
    BigInt(row), BigInt(count));
  if (refusal !== 0) return { refusal, counts: [] };
  return { refusal, counts: new BigInt64Array(exported.memory.buffer, row, count) };
}

// { refusal, position }: three BigInt in units of 0.1 mm, from three of the same kind.
export function datumStep(message, position) {
  const [answer, input] = areas([32, message]);
  exported.tarnoklej_datum_step(BigInt(answer), BigInt(input), BigInt(message.length), ...position);
  return {
    refusal: view().getUint8(answer),
    position: [8, 16, 24].map((offset) => view().getBigInt64(answer + offset, true)),
  };
}

// { refusal, place }: place is that of the first bad point, with CLAIM.
export function checkSamples(file) {
  const [answer, input] = areas([16, file]);
  exported.tarnoklej_check_samples(BigInt(answer), BigInt(input), BigInt(file.length));
  return { refusal: view().getUint8(answer), place: unsigned(answer + 8) };
}

// The report of one component over points, north and east being BigInt64Array:
// { refusal, answered, refused, smallest, greatest, smallestPlace, greatestPlace, sum }, all numbers BigInt.
export function reportPoints(message, component, north, east) {
  const [answer, input, norths, easts] = areas([176, message, north, east]);
  exported.tarnoklej_report_points(
    BigInt(answer), BigInt(input), BigInt(message.length), component,
    BigInt(norths), BigInt(north.length), BigInt(easts), BigInt(east.length));
  const number = (place) => view().getBigInt64(answer + 8 * place, true);
  return {
    refusal: view().getUint8(answer),
    answered: number(1),
    refused: Array.from({ length: 15 }, (_, index) => number(2 + index)),
    smallest: number(17),
    greatest: number(18),
    smallestPlace: number(19),
    greatestPlace: number(20),
    sum: number(21),
  };
}

// { refusal, bytes }: the message 1023 of sixteen heights in millimetres; values and present are those of its row.
export function writeHeights(values, present, wanted) {
  const room = TABLES.sizes.MOST_BYTES;
  const [answer, out, valueArea, presentArea, wantedArea] = areas([16, room, values, present, wanted]);
  exported.tarnoklej_write_heights(
    BigInt(answer), BigInt(valueArea), BigInt(values.length), BigInt(presentArea), BigInt(present.length),
    BigInt(wantedArea), BigInt(wanted.length), BigInt(out), BigInt(room));
  return { refusal: view().getUint8(answer), bytes: bytesAt(out, unsigned(answer + 8)) };
}

// { refusal, bytes }: the frame of a message.
export function writeFrame(message) {
  const room = TABLES.sizes.MOST_FRAMED + TABLES.sizes.FRAME_HEAD + TABLES.sizes.FRAME_TAIL;
  const [answer, out, input] = areas([16, room, message]);
  exported.tarnoklej_write_frame(
    BigInt(answer), BigInt(input), BigInt(message.length), BigInt(out), BigInt(room));
  return { refusal: view().getUint8(answer), bytes: bytesAt(out, unsigned(answer + 8)) };
}
