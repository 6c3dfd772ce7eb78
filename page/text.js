// Words and numbers as text, and elements of the page.

export function element(name, attributes = {}, ...children) {
  const made = document.createElement(name);
  for (const [key, value] of Object.entries(attributes)) {
    if (key === "class") made.className = value;
    else if (key.startsWith("on")) made.addEventListener(key.slice(2), value);
    else if (value !== false && value !== null) made.setAttribute(key, value === true ? "" : value);
  }
  made.append(...children);
  return made;
}

export function byId(id) {
  return document.getElementById(id);
}

const MINUS = "\u2212";

// Digits in groups of three from five digits on.
export function grouped(number) {
  const [whole, fraction] = String(number).replace(/^-/, "").split(".");
  const digits = whole.length < 5 ? whole : whole.replace(/\B(?=(\d{3})+$)/g, "\u202f");
  return (String(number).startsWith("-") ? MINUS : "") + digits + (fraction === undefined ? "" : "." + fraction);
}

// raw times a decimal resolution, exactly: times(5n, "0.00002") is "0.00010".
export function times(raw, resolution) {
  const decimals = (resolution.split(".")[1] ?? "").length;
  return withDecimals(raw * BigInt(resolution.replace(".", "")), decimals);
}

// A whole number of units as a decimal text: withDecimals(-12345n, 4) is "-1.2345".
export function withDecimals(units, decimals) {
  const size = (units < 0n ? -units : units).toString().padStart(decimals + 1, "0");
  const text = decimals === 0 ? size : size.slice(0, -decimals) + "." + size.slice(-decimals);
  return (units < 0n ? "-" : "") + text;
}

// A decimal text as a whole number of units, or null where it is no number or has too many decimals.
export function wholeUnits(text, decimals) {
  const found = /^([+-]?)(\d+)(?:\.(\d*))?$/.exec(text.trim().replace(MINUS, "-"));
  if (!found || (found[3] ?? "").length > decimals) return null;
  const size = BigInt(found[2] + (found[3] ?? "").padEnd(decimals, "0"));
  return found[1] === "-" ? -size : size;
}

// From units of that many decimals to whole steps, halves away from zero.
export function nearestStep(units, stepsInOne, decimals) {
  const one = 10n ** BigInt(decimals);
  const size = (2n * (units < 0n ? -units : units) * stepsInOne + one) / (2n * one);
  return units < 0n ? -size : size;
}

export function unitSign(unit) {
  return { "arc second": "\u2033", degree: "\u00b0", "": "" }[unit] ?? "\u202f" + unit;
}

// The same without zeros at the end of the seconds.
export function shortSexagesimal(steps, letters) {
  return sexagesimal(steps, letters).replace(/\.?0+\u2033/, (zeros) => (zeros.startsWith(".") ? "\u2033" : zeros))
    .replace(/(\.\d*?)0+\u2033/, "$1\u2033");
}

// Steps of 0.0001 arc second as degrees, minutes and seconds.
export function sexagesimal(steps, letters, decimals = 4) {
  const size = Math.abs(steps);
  const degrees = Math.floor(size / 36000000);
  const minutes = Math.floor((size % 36000000) / 600000);
  const seconds = ((size % 600000) / 10000).toFixed(decimals).padStart(decimals ? decimals + 3 : 2, "0");
  return `${degrees}\u00b0${String(minutes).padStart(2, "0")}\u2032${seconds}\u2033\u202f${letters[steps < 0 ? 1 : 0]}`;
}

export function hexadecimal(byte) {
  return byte.toString(16).padStart(2, "0");
}

export function several(count, one, many) {
  return `${grouped(count)} ${count === 1 ? one : many}`;
}

// The name of a field, with what follows an underline set low.
export function fieldName(name) {
  const parts = name.split(/_([A-Za-z0-9]+)/);
  return parts.map((part, index) => (index % 2 ? element("sub", {}, part) : part));
}
