/* Octets in hexadecimal, of which one element is marked. */

import { make } from "./dom.js";
import { LineList } from "./line_list.js";
import { toHex } from "./octet_text.js";

const OCTETS_HEIGHT = 20;

/** What a line of 16 octets needs besides its characters, in pixels, and how many characters it has after the offset. */
const WIDE_MARGIN = 82, WIDE_CHARACTERS = 65;

export class OctetView {
  /** `pick` is called with an octet that is clicked or gone to by keys. */
  constructor(box, pick = null) {
    Object.assign(this, { box, pick, octets: new Uint8Array(0), range: null, place: -1, cursor: 0, perLine: 16 });
    this.lines = new LineList(box, OCTETS_HEIGHT, (line, i) => this.#fill(line, i));
    new ResizeObserver(() => this.#fit()).observe(box);
    if (!pick) return;
    box.addEventListener("click", (event) => this.#click(event));
    box.addEventListener("keydown", (event) => this.#key(event));
  }

  /** Shows octets, and the place where they are refused, or -1. */
  set(octets, place = -1) {
    Object.assign(this, { octets, place, range: null, cursor: 0 });
    this.lines.set(Math.ceil(octets.length / this.perLine));
  }

  /** Marks an element: where it, its length, its content begin, and where it ends. */
  mark(range) {
    this.range = range;
    if (range) this.cursor = range.begin;
    this.lines.again();
  }

  /** Brings an octet into sight. */
  centre(offset) {
    this.lines.centre(Math.floor(offset / this.perLine));
  }

  #fit() {
    const perLine = this.box.clientWidth >= WIDE_MARGIN + WIDE_CHARACTERS * this.#characterWidth() ? 16 : 8;
    if (perLine === this.perLine || !this.box.clientWidth) return;
    this.perLine = perLine;
    this.lines.set(Math.ceil(this.octets.length / perLine));
    if (this.range) this.centre(this.range.begin);
  }

  #characterWidth() {
    const text = make("span", "measure", "0".repeat(100), { "aria-hidden": "true" });
    this.box.append(text);
    const width = text.getBoundingClientRect().width / 100;
    text.remove();
    return width || 7;
  }

  /** What an octet is of: of the place, of the element's identifier, length or content, or nothing. */
  #kindOf(offset) {
    const { range } = this;
    if (offset === this.place) return "place";
    if (!range || offset < range.begin || offset >= range.end) return "";
    if (offset < range.length) return "sel-id";
    return offset < range.content ? "sel-len" : "sel";
  }

  #fill(line, i) {
    const begin = i * this.perLine, row = this.octets.subarray(begin, begin + this.perLine), digits = make("span", "digits");
    let run = null;
    for (let at = 0; at < row.length; at++) {
      const kind = this.#kindOf(begin + at), isJoined = kind && run && run.className === kind;
      if (at) (isJoined ? run : digits).append(at === 8 ? "  " : " ");
      if (!isJoined) {
        run = make("i", kind);
        digits.append(run);
      }
      run.append(toHex(row.subarray(at, at + 1)));
    }
    const width = 3 * this.perLine + (this.perLine > 8 ? 0 : -1), used = Math.max(0, 3 * row.length - 1 + (row.length > 8 ? 1 : 0));
    digits.append(" ".repeat(width - used));
    const characters = Array.from(row, (octet) => (octet > 31 && octet < 127 ? String.fromCharCode(octet) : "·")).join("");
    line.append(make("span", "offset", String(begin)), digits, make("span", "chars", characters));
  }

  #click(event) {
    const line = event.target.closest(".v");
    if (!line || !this.octets.length) return;
    const first = line.querySelector(".digits").getBoundingClientRect();
    const column = Math.floor((event.clientX - first.left) / this.#characterWidth());
    const inLine = Math.floor((column - (column > 24 ? 1 : 0)) / 3);
    const index = Math.round((line.getBoundingClientRect().top - this.lines.room.getBoundingClientRect().top) / OCTETS_HEIGHT);
    this.#go(index * this.perLine + Math.max(0, Math.min(this.perLine - 1, inLine)));
  }

  #key(event) {
    if (event.altKey || event.ctrlKey || event.metaKey) return;
    const page = this.perLine * this.lines.perPage(), last = this.octets.length - 1;
    const steps = { ArrowRight: 1, ArrowLeft: -1, PageDown: page, PageUp: -page, Home: -last, End: last };
    Object.assign(steps, { ArrowDown: this.perLine, ArrowUp: -this.perLine });
    if (!steps[event.key]) return;
    event.preventDefault();
    this.#go(Math.max(0, Math.min(last, this.cursor + steps[event.key])));
  }

  #go(offset) {
    if (offset >= this.octets.length) return;
    this.pick(offset);
    this.cursor = offset;
    this.centre(offset);
  }
}
