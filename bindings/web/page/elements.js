/* The lines of `dump` as a tree. A line is read when it is shown; until then only its place, its offset and its depth are kept. */

const CLASSES = ["UNIVERSAL ", "APPLICATION ", "", "PRIVATE "];

/** Names that are types and say nothing of the part. */
const TYPES = new Set([
  "SEQUENCE", "EXTERNAL", "OCTET STRING", "BIT STRING", "GeneralString", "VisibleString", "INTEGER", "ENUMERATED", "OBJECT IDENTIFIER",
]);

/** What is to be said of the notes that `dump` writes. */
const NOTES = [
  [/^length in/, "X.690 allows more length octets than are needed. The normal form has as few as possible."],
  [/^indefinite$/, "The length is not written, and an end mark (00 00) closes the element. The normal form has the definite form."],
  [/^in segments$/, "The string is cut into segments. The normal form has it in one piece."],
  [/^segment$/, "A piece of the string round it. The normal form has the string in one piece."],
  [/^without inner SEQUENCE$/, "The SEQUENCE that is due here is left out. The normal form has it."],
  [/^TRUE as/, "Any octet but 00 is TRUE. The normal form has ff."],
  [/^default written$/, "The value is the default, which the normal form leaves out."],
  [/^unused bits are not 0$/, "Bits after the last one of the string are set. In the normal form they are 0."],
  [/^cut short$/, "The octets, or those of an element round it, end before the content does."],
  [/^not judged$/, "The message is refused at this element or before it. So only its identifier and its length are read."],
];

/** How a line ends whose octets begin no element. */
const OCTETS_END = "  octets  (not judged)";

/** What a note means. */
export function meaningOfNote(note) {
  const found = NOTES.find(([pattern]) => pattern.test(note));
  return found ? found[1] : "";
}

/** What is said of an element by a note. */
export function titleOfNote(note) {
  return { "cut short": "Cut short", "not judged": "Not judged" }[note] || "Not normal";
}

export class Elements {
  constructor(text) {
    this.text = text;
    this.refusal = null; // the lines of the refusal, after which the elements are not judged
    const starts = [], offsets = [], depths = [];
    for (let at = text.indexOf("\n") + 1; at < text.length; at = text.indexOf("\n", at) + 1) {
      if (!isOfElement(text, at)) {
        this.refusal ||= [];
        this.refusal.push(text.slice(at, text.indexOf("\n", at)));
        this.judged = starts.length;
        continue;
      }
      const { offset, depth } = beginningOf(text, at);
      starts.push(at);
      offsets.push(offset);
      depths.push(depth);
    }
    this.count = starts.length;
    this.judged ??= this.count; // the number of elements before the place where the message is refused
    this.starts = Uint32Array.from(starts);
    this.offsets = Uint32Array.from(offsets);
    this.depths = Uint8Array.from(depths);
    this.isClosed = new Uint8Array(this.count);
    this.#place();
    this.show();
  }

  /** Finds of each element its parent, its number among its siblings, how many they are, and the first line after its children. */
  #place() {
    const count = this.count, open = [], counts = [0], totals = new Map();
    this.parents = new Int32Array(count).fill(-1);
    this.numbers = new Uint32Array(count);
    this.siblings = new Uint32Array(count);
    this.after = new Uint32Array(count).fill(count);
    for (let i = 0; i < count; i++) {
      if (i > 0 && this.depths[i] > this.depths[i - 1]) {
        open.push(i - 1);
        counts.push(0);
      }
      while (open.length > this.depths[i]) {
        this.after[open[open.length - 1]] = i;
        totals.set(open.pop(), counts.pop());
      }
      this.parents[i] = open.length ? open[open.length - 1] : -1;
      this.numbers[i] = ++counts[counts.length - 1];
    }
    while (open.length) totals.set(open.pop(), counts.pop());
    totals.set(-1, counts[0]);
    for (let i = 0; i < count; i++) this.siblings[i] = totals.get(this.parents[i]);
  }

  hasChildren(i) {
    return i + 1 < this.count && this.depths[i + 1] > this.depths[i];
  }

  /** Finds the lines that no closed element hides, and how many of them are of elements that are judged. */
  show() {
    const shown = new Uint32Array(this.count);
    let count = 0;
    this.judgedShown = 0;
    for (let i = 0; i < this.count; i = this.isClosed[i] && this.hasChildren(i) ? this.after[i] : i + 1) {
      shown[count++] = i;
      if (i < this.judged) this.judgedShown = count;
    }
    this.shown = shown.subarray(0, count);
  }

  /** The place among the lines shown of an element, or of the closed one that hides it. */
  placeOf(i) {
    return lastAtMost(this.shown, i);
  }

  /** The innermost element that has this octet. */
  at(offset) {
    return lastAtMost(this.offsets, offset);
  }

  line(i) {
    const end = this.text.indexOf("\n", this.starts[i]);
    return this.text.slice(this.starts[i], end < 0 ? this.text.length : end);
  }

  /** An element, as its line says it. */
  element(i) {
    const place = { offset: this.offsets[i], depth: this.depths[i], isJudged: i < this.judged }, line = this.line(i);
    if (!place.isJudged && line.endsWith(OCTETS_END)) return octetsAt(place, line.slice(0, -OCTETS_END.length));
    const [, hex, rest] = /^ *\d+ +((?:[0-9a-f]{2} )*[0-9a-f]{2})(?: {2}(.*))?$/.exec(line);
    const header = hex.split(" ").map((octet) => parseInt(octet, 16));
    const element = { ...place, header, ...partsOf(header), value: null, kind: "", notes: [], isMark: false };
    element.name = /^(.*?)(?= = | {2}\(|$)/.exec(rest)[1];
    element.isType = TYPES.has(element.name) || element.name.startsWith("[");
    let tail = rest.slice(element.name.length);
    if (tail.startsWith(" = ")) {
      tail = tail.slice(3);
      element.value = tail.slice(0, endOfValue(tail));
      element.kind = kindOfValue(element.value);
      tail = tail.slice(element.value.length);
    }
    const notes = /^ {2}\((.*)\)$/.exec(tail);
    if (notes) element.notes = notes[1].split(", ");
    if (element.name === "end mark") return { ...element, isMark: true, isConstructed: false, size: 0 };
    return element;
  }

  /** Where an element ends, in octets of this number. One of the indefinite form ends with the end mark that is at its depth. */
  end(i, count) {
    const element = this.element(i), begin = element.offset + element.header.length, bound = this.#bound(i, count);
    if (element.isMark) return begin;
    if (element.size !== null) return Math.min(bound, begin + element.size);
    const mark = this.hasChildren(i) ? this.after[i] : i + 1;
    const isClosed = mark < this.count && this.depths[mark] === element.depth && this.element(mark).isMark;
    if (isClosed) return this.offsets[mark] + 2;
    return this.hasChildren(i) || element.value !== null ? bound : begin;
  }

  /** Where the octets, of this number, or those of an element round this one end. */
  #bound(i, count) {
    let bound = count;
    for (let at = this.parents[i]; at >= 0; at = this.parents[at]) {
      const { offset, header, size } = this.element(at);
      if (size !== null) bound = Math.min(bound, offset + header.length + size);
    }
    return bound;
  }

  /** The names of the parts round an element, and its own. */
  path(i) {
    const names = [];
    for (let at = i; at >= 0; at = this.parents[at]) {
      const element = this.element(at);
      if (!element.isType || !element.isJudged || at === i) names.unshift(element.name);
    }
    return names;
  }
}

/** Whether the line there is of an element, which begins with its offset. A line of a refusal begins with a word. */
function isOfElement(text, at) {
  let i = at;
  while (text.charCodeAt(i) === 32) i++;
  return text.charCodeAt(i) >= 48 && text.charCodeAt(i) <= 57;
}

/** The offset and the depth that a line begins with. */
function beginningOf(text, at) {
  let i = at, offset = 0;
  while (text.charCodeAt(i) === 32) i++;
  while (text.charCodeAt(i) !== 32) offset = 10 * offset + text.charCodeAt(i++) - 48;
  const blanks = i;
  while (text.charCodeAt(i) === 32) i++;
  return { offset, depth: (i - blanks - 2) / 2 };
}

/** What a line says of octets that begin no element: `text` is the offset and the octets. */
function octetsAt(place, text) {
  const value = text.slice(/^ *\d+ +/.exec(text)[0].length), size = (value.length + 1) / 3;
  const none = { header: [], idSize: 0, tag: "", tagClass: 0, isConstructed: false, isMark: false };
  return { ...place, ...none, name: "octets", isType: true, isOctets: true, size, value, kind: "other", notes: ["not judged"] };
}

/** The last index in ascending numbers at which one is at most `limit`; 0 where none is. */
function lastAtMost(numbers, limit) {
  let low = 0, high = numbers.length - 1;
  while (low < high) {
    const middle = (low + high + 1) >> 1;
    if (numbers[middle] <= limit) low = middle;
    else high = middle - 1;
  }
  return low;
}

/** Where the value ends that a text begins with: before the notes, which begin outside quotation marks. */
function endOfValue(text) {
  let at = 0;
  while (at < text.length && !text.startsWith("  (", at)) at = text[at] === '"' ? afterQuoted(text, at) : at + 1;
  return at;
}

/** The place after the string in quotation marks that begins there. */
function afterQuoted(text, begin) {
  let at = begin + 1;
  while (at < text.length && text[at] !== '"') at += text[at] === "\\" ? 2 : 1;
  return at + 1;
}

function kindOfValue(value) {
  if (value.startsWith('"')) return "string";
  if (/^(TRUE|FALSE)$/.test(value)) return "flag";
  return /^-?\d{1,19}( \([\w-]+\))?$/.test(value) ? "number" : "other";
}

/** What the octets of a header say: the identifier and its number of octets, and the size of the content, null of the indefinite form. */
function partsOf(header) {
  let last = 0, number = header[0] & 31;
  if (number === 31) {
    number = 0;
    do number = number * 128 + (header[++last] & 127);
    while (last + 1 < header.length && header[last] & 128);
  }
  const idSize = last + 1, first = header[idSize];
  let size = first;
  if (first === undefined || first === 128) size = null;
  else if (first > 128) size = header.slice(idSize + 1).reduce((sum, octet) => 256 * sum + octet, 0);
  const tagClass = header[0] >> 6;
  return { idSize, size, tag: `[${CLASSES[tagClass]}${number}]`, tagClass, isConstructed: (header[0] & 32) !== 0 };
}
