// Bytes outside frames, and why they are: a candidate with a wrong CRC, one that is not finished, or noise.
// A candidate is D3, six zero bits and a length of ten bits. One that is whole and yet no frame has a wrong CRC, since
// the library has looked at each D3 outside frames.

const PREAMBLE = 0xd3;

// { at, size } of a candidate with all bytes that it calls for, or null. Where its length is not there it is unfinished,
// and size is that of its beginning.
function candidateAt(bytes, at) {
  const { FRAME_HEAD: head, FRAME_TAIL: tail } = TABLES.sizes;
  if (bytes[at] !== PREAMBLE || (bytes[at + 1] ?? 0) > 3) return null;
  if (at + head > bytes.length) return { at, size: head };
  return { at, size: head + (bytes[at + 1] & 3) * 256 + bytes[at + 2] + tail };
}

function nextCandidate(bytes, from, end) {
  for (let at = bytes.indexOf(PREAMBLE, from); at >= 0 && at < end; at = bytes.indexOf(PREAMBLE, at + 1)) {
    const found = candidateAt(bytes, at);
    if (found) return found;
  }
  return null;
}

// The entries of the bytes from one place to another, between which there is no frame. A candidate that ends before the
// next frame has all of its bytes; one that does not has those up to the next candidate.
export function outsideParts(bytes, from, end) {
  const parts = [];
  let at = from;
  while (at < end) {
    const candidate = nextCandidate(bytes, at, end);
    const start = candidate?.at ?? end;
    if (start > at) parts.push(part("noise", at, start - at, 0));
    if (!candidate) break;
    const called = start + candidate.size;
    const stop = called <= end ? called : nextCandidate(bytes, start + 1, end)?.at ?? end;
    const unfinished = called > bytes.length || start + TABLES.sizes.FRAME_HEAD > bytes.length;
    parts.push(part(unfinished ? "unfinished" : "crc", start, stop - start, candidate.size));
    at = stop;
  }
  return parts;
}

function part(kind, at, size, called) {
  return { at, size, length: size, head: 0, number: null, kind, sin: null, refusal: 0, called };
}

// How many more candidates begin among the bytes of an entry behind its first one.
export function candidatesInside(bytes, { at, size }) {
  let count = 0;
  for (let found = nextCandidate(bytes, at + 1, at + size); found; found = nextCandidate(bytes, found.at + 1, at + size)) {
    count += 1;
  }
  return count;
}
