/* JSON in which whole numbers are exact: JSON.parse rounds those past 53 bits, and JSON.stringify refuses a BigInt. */

/** The most objects and lists that are open at once in a line. */
const MOST_LEVELS = 128;

/** A value that nests deeper than a line may. */
export class TooDeep extends Error {}

/** The text of a value of JSON: null, booleans, strings, whole numbers as numbers or BigInt, arrays, and objects by their own names. What JSON
 * doesn't have is a TypeError, and a number that is no safe integer a RangeError: nothing is left out, rounded or replaced. */
export function writeJson(value, levels = MOST_LEVELS) {
  switch (typeof value) {
    case "boolean": case "bigint": return String(value);
    case "string": return JSON.stringify(value);
    case "number": return wholeText(value);
    case "object": if (value === null) return "null";
  }
  if (levels === 0) throw new TooDeep();
  if (Array.isArray(value)) return `[${Array.from(value, (item) => writeJson(item, levels - 1)).join(",")}]`;
  if (Object.prototype.toString.call(value) !== "[object Object]") throw new TypeError(`${String(value)} is no value of JSON`);
  return `{${Object.entries(value).map(([name, inner]) => `${JSON.stringify(name)}:${writeJson(inner, levels - 1)}`).join(",")}}`;
}

function wholeText(number) {
  if (!Number.isSafeInteger(number)) throw new RangeError(`${number} is no safe integer: a number past 53 bits is a BigInt`);
  return String(number);
}

/** The value of a line that the module wrote, which is JSON without spaces. A whole number that is not safe as a number is a BigInt. */
export function readJson(line) {
  return new Reader(line).value();
}

class Reader {
  #line;
  #at = 0;

  constructor(line) {
    this.#line = line;
  }

  value() {
    switch (this.#line[this.#at]) {
      case "{": return Object.fromEntries(this.#parts("}", () => [this.#string(), this.#inner()]));
      case "[": return this.#parts("]", () => this.value());
      case '"': return this.#string();
      default: return this.#word();
    }
  }

  /** What is between brackets, of which the last is `end`, with a comma between two. */
  #parts(end, part) {
    const parts = [];
    for (this.#at++; this.#line[this.#at] !== end; ) {
      parts.push(part());
      if (this.#line[this.#at] === ",") this.#at++;
    }
    this.#at++;
    return parts;
  }

  /** The value after a name and its colon. */
  #inner() {
    this.#at++;
    return this.value();
  }

  #string() {
    let end = this.#at + 1;
    while (end < this.#line.length && this.#line[end] !== '"') end += this.#line[end] === "\\" ? 2 : 1;
    return JSON.parse(this.#taken(end + 1));
  }

  /** A number, true, false or null. */
  #word() {
    let end = this.#at;
    while (/[-\w]/.test(this.#line[end] ?? "")) end++;
    const word = this.#taken(end), value = JSON.parse(word);
    return typeof value !== "number" || Number.isSafeInteger(value) ? value : BigInt(word);
  }

  #taken(end) {
    const text = this.#line.slice(this.#at, end);
    this.#at = end;
    return text;
  }
}
