/* Hex dumps: the lines that xxd, hexdump -C and od -t x1 write. */

/** The layouts: a line with octets, where it has the offset and the digits; the last line, the number of octets; and the radixes of offsets. */
const LAYOUTS = [
  { line: /^([0-9a-f]{6,}): ((?:[0-9a-f]{2})+(?: (?:[0-9a-f]{2})+)*)(?: {2}.*)?$/i, end: null, radixes: [16] },
  { line: /^([0-9a-f]{6,}) {2}((?:[0-9a-f]{2} {0,2})+) *(?:\|.*\|)?$/i, end: /^([0-9a-f]{6,})$/i, radixes: [16] },
  { line: /^([0-9a-f]{6,}) ((?:[0-9a-f]{2} ?)+)$/i, end: /^([0-9a-f]{6,})$/i, radixes: [10, 8, 16] },
];

/** A line that stands for others, which are as the one before it. */
const SAME = "*";

/** The octets of a dump, or null for a text that is none. */
export function octetsOfDump(text) {
  const first = text.trimStart().split("\n", 1)[0].trimEnd(), layout = LAYOUTS.find(({ line }) => line.test(first));
  if (!layout || parseInt(first, 16) !== 0) return null;
  const lines = text.split("\n").map((line) => line.trimEnd()).filter((line) => line);
  const faults = [];
  for (const radix of layout.radixes) {
    const { octets, fault } = octetsBy(layout, radix, lines);
    if (!fault) return Uint8Array.from(octets);
    faults.push(fault);
  }
  throw new Error(`it is a hex dump, and ${faults[0]}`);
}

/** The octets of lines of a layout, with offsets in a radix, or what is wrong. */
function octetsBy(layout, radix, lines) {
  const octets = [];
  let row = [], isSame = false;
  for (const [at, line] of lines.entries()) {
    if (line === SAME) {
      isSame = true;
      continue;
    }
    const [, digits, pairs = ""] = layout.line.exec(line) || (at === lines.length - 1 && layout.end && layout.end.exec(line)) || [];
    if (!digits) return { fault: `its line ${at + 1} is none` };
    const offset = parseInt(digits, radix);
    while (isSame && row.length && octets.length < offset) octets.push(...row);
    isSame = false;
    if (octets.length !== offset) return { fault: `its line ${at + 1} has the offset ${digits}, after ${octets.length} octets` };
    row = pairs.replace(/ /g, "").match(/../g) || [];
    row = row.map((pair) => parseInt(pair, 16));
    octets.push(...row);
  }
  return isSame ? { fault: "its last line is missing" } : { octets };
}
