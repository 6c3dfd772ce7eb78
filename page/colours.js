// Colours of the strip and of the map. The map's scale goes from blue over a pale middle to orange, which readers with
// any common colour blindness tell apart.

// For each kind of entry its colour, or the name of the colour of its hatching and true.
export const KIND_COLOURS = {
  sound: ["#2b78b8", false], refused: ["#d4570a", false], other: ["#818b95", false],
  crc: ["--hatch-crc", true], unfinished: ["--hatch-unfinished", true], noise: ["--hatch", true],
};

const STOPS = [
  [0x1b, 0x3f, 0x7f], [0x3d, 0x77, 0xb5], [0x93, 0xbd, 0xdd], [0xf4, 0xf2, 0xec],
  [0xf2, 0xb8, 0x78], [0xcf, 0x74, 0x22], [0x84, 0x3c, 0x06],
];

// The colour of a part from -1 to 1 as three numbers from 0 to 255.
export function scaleColour(part) {
  const place = ((Math.max(-1, Math.min(1, part)) + 1) / 2) * (STOPS.length - 1);
  const index = Math.min(STOPS.length - 2, Math.floor(place));
  const rest = place - index;
  return STOPS[index].map((from, channel) => Math.round(from + rest * (STOPS[index + 1][channel] - from)));
}

export function pageColour(name) {
  return getComputedStyle(document.documentElement).getPropertyValue(name).trim();
}

// Diagonal lines, for places without an answer and bytes outside frames.
export function hatching(context, colour, gap) {
  const tile = document.createElement("canvas");
  tile.width = gap;
  tile.height = gap;
  const lines = tile.getContext("2d");
  lines.strokeStyle = colour;
  lines.lineWidth = 1;
  for (const shift of [-gap, 0, gap]) {
    lines.beginPath();
    lines.moveTo(shift - 1, gap + 1);
    lines.lineTo(shift + gap + 1, -1);
    lines.stroke();
  }
  return context.createPattern(tile, "repeat");
}

// Sets a canvas to a size in page pixels, sharp on any screen, and gives its context.
export function sharpContext(canvas, width, height) {
  const ratio = window.devicePixelRatio || 1;
  canvas.width = Math.round(width * ratio);
  canvas.height = Math.round(height * ratio);
  canvas.style.width = `${width}px`;
  canvas.style.height = `${height}px`;
  const context = canvas.getContext("2d");
  context.setTransform(ratio, 0, 0, ratio, 0, 0);
  context.clearRect(0, 0, width, height);
  return context;
}
