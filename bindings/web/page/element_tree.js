/* The tree of a message's elements, by the ARIA pattern of a tree: arrows, Home, End, Page Up, Page Down, Enter. */

import { make } from "./dom.js";
import { LineList } from "./line_list.js";
import { toHex } from "./octet_text.js";

const ELEMENT_HEIGHT = 27, INDENT = 18;

/** The most characters of a value that a line has, and those above which it is cut where the line is full. */
const MOST_IN_LINE = 400, LONG_VALUE = 14;

export class ElementTree {
  /** `chosen` is called with an element that is selected, and whether it is to be brought into sight elsewhere. */
  constructor(box, chosen) {
    Object.assign(this, { box, chosen, elements: null, found: null, selected: 0 });
    this.lines = new LineList(box, ELEMENT_HEIGHT, (line, at) => this.#fill(line, at));
    box.addEventListener("keydown", (event) => this.#key(event));
    box.addEventListener("click", (event) => this.#click(event));
  }

  /** Shows the elements of a message, and where it is refused. */
  set(elements, found) {
    Object.assign(this, { elements, found, selected: 0 });
    this.lines.set(this.#lineCount());
  }

  #lineCount() {
    return this.elements.shown.length + (this.found.refusal ? 1 : 0);
  }

  /** Brings the line into sight on which a message is refused: it is before the elements that are not judged. */
  bringRefusal() {
    this.lines.centre(this.elements.judgedShown);
  }

  /** The line of the element that is shown at a place. */
  #lineOf(place) {
    return place < this.elements.judgedShown ? place : place + 1;
  }

  /** Selects an element, and opens those round it. */
  select(i, moves = true) {
    const { elements } = this;
    if (!elements || i < 0 || i >= elements.count) return;
    this.#openTo(i);
    this.selected = i;
    if (moves) this.lines.bring(this.#lineOf(elements.placeOf(i)));
    for (const line of this.lines.drawn.values()) if (line.id) line.setAttribute("aria-selected", String(line.id === `e${i}`));
    this.box.setAttribute("aria-activedescendant", `e${i}`);
    this.chosen(i, moves);
  }

  #openTo(i) {
    const { elements } = this;
    let isChanged = false;
    for (let up = elements.parents[i]; up >= 0; up = elements.parents[up]) {
      isChanged ||= elements.isClosed[up] === 1;
      elements.isClosed[up] = 0;
    }
    if (isChanged) this.#redraw();
  }

  #redraw() {
    this.elements.show();
    this.lines.set(this.#lineCount(), true);
  }

  toggle(i, isClosed = !this.elements.isClosed[i]) {
    if (!this.elements.hasChildren(i)) return;
    this.elements.isClosed[i] = isClosed ? 1 : 0;
    this.#redraw();
    this.select(i);
  }

  /** Closes all elements but the outermost one, or opens all. */
  toggleAll(isClosed) {
    const { elements } = this;
    if (!elements || !elements.count) return;
    for (let i = 0; i < elements.count; i++) elements.isClosed[i] = isClosed && elements.depths[i] > 0 ? 1 : 0;
    this.#redraw();
    this.select(isClosed ? 0 : this.selected);
  }

  #fill(line, at) {
    const { elements } = this, { judgedShown } = elements;
    if (at === judgedShown) this.#fillRefusal(line);
    else this.#fillElement(line, elements.shown[at < judgedShown ? at : at - 1]);
  }

  #fillElement(line, i) {
    const { elements } = this, element = elements.element(i), hasChildren = elements.hasChildren(i);
    const places = { "aria-level": element.depth + 1, "aria-setsize": elements.siblings[i], "aria-posinset": elements.numbers[i] };
    for (const [name, value] of Object.entries({ role: "treeitem", ...places })) line.setAttribute(name, String(value));
    line.id = `e${i}`;
    line.setAttribute("aria-selected", String(i === this.selected));
    if (hasChildren) line.setAttribute("aria-expanded", String(!elements.isClosed[i]));
    if (!element.isJudged) line.classList.add("unjudged");
    const fold = make("span", "fold", hasChildren ? (elements.isClosed[i] ? "▸" : "▾") : "", { "aria-hidden": "true" });
    line.append(make("span", "offset", String(element.offset)), headerOf(element), rails(element.depth), fold);
    line.append(make("span", `name${element.isType ? " type" : ""}${element.isMark ? " mark" : ""}`, element.name));
    if (element.value !== null) line.append(make("span", "equals", "="), valueOf(element));
    for (const note of element.notes) line.append(make("span", `note${note === "not judged" ? " plain" : ""}`, note, { title: note }));
  }

  /** The line of the place where the message is refused. */
  #fillRefusal(line) {
    const { refusal, octets } = this.found, octet = make("span", "octets");
    if (refusal.offset < octets.length) octet.append(make("span", "stop", toHex(octets.subarray(refusal.offset, refusal.offset + 1))));
    line.setAttribute("role", "presentation");
    line.append(make("span", "offset", String(refusal.offset)), octet, rails(this.#depthOfRefusal()), make("span", "fold"));
    line.append(make("span", "stop", `✕ ${refusal.cause}${refusal.part ? ` ${refusal.part}` : ""}`));
  }

  /** The depth of what is refused: that of the first element that is not judged, unless a part is missing before it. */
  #depthOfRefusal() {
    const { elements, found } = this, { refusal, octets } = found, last = elements.judged - 1;
    if (elements.judged < elements.count && refusal.cause !== "Missing") return elements.depths[elements.judged];
    if (last < 0) return 0;
    const isInside = elements.element(last).isConstructed && elements.end(last, octets.length) > refusal.offset;
    return elements.depths[last] + (isInside ? 1 : 0);
  }

  #click(event) {
    const line = event.target.closest("[role=treeitem]");
    if (!line) return;
    const i = Number(line.id.slice(1));
    if (event.target.closest(".fold") || event.detail === 2) this.toggle(i);
    else this.select(i, false);
  }

  #key(event) {
    const { elements, selected } = this;
    if (!elements || !elements.count || event.altKey || event.ctrlKey || event.metaKey) return;
    const place = elements.placeOf(selected), last = elements.shown.length - 1;
    const to = (at) => this.select(elements.shown[Math.max(0, Math.min(last, at))]);
    const keys = {
      ArrowDown: () => to(place + 1), ArrowUp: () => to(place - 1), Home: () => to(0), End: () => to(last),
      PageDown: () => to(place + this.lines.perPage()), PageUp: () => to(place - this.lines.perPage()),
      ArrowRight: () => this.#inwards(place, to), ArrowLeft: () => this.#outwards(),
      Enter: () => this.toggle(selected), " ": () => this.toggle(selected),
    };
    if (!keys[event.key]) return;
    event.preventDefault();
    keys[event.key]();
  }

  /** Opens the selected element, or goes to the first one in it. */
  #inwards(place, to) {
    const { elements, selected } = this;
    if (!elements.hasChildren(selected)) return;
    if (elements.isClosed[selected]) this.toggle(selected, false);
    else to(place + 1);
  }

  /** Closes the selected element, or goes to the one round it. */
  #outwards() {
    const { elements, selected } = this;
    if (elements.hasChildren(selected) && !elements.isClosed[selected]) this.toggle(selected, true);
    else if (elements.parents[selected] >= 0) this.select(elements.parents[selected]);
  }
}

function rails(depth) {
  const made = make("span", "rails");
  made.style.width = `${INDENT * depth}px`;
  return made;
}

/** The octets of a header, with the identifier and the length apart. */
function headerOf(element) {
  if (element.isMark) {
    const mark = make("span", "octets");
    mark.append(make("span", "len", "00 00"));
    return mark;
  }
  const made = make("span", "octets"), id = element.header.slice(0, element.idSize), length = element.header.slice(element.idSize);
  made.append(make("span", `c${element.tagClass}`, toHex(id, " ")));
  if (length.length) made.append(" ", make("span", "len", toHex(length, " ")));
  return made;
}

function valueOf({ value, kind }) {
  const text = value.length > MOST_IN_LINE ? `${value.slice(0, MOST_IN_LINE)}…` : value;
  return make("span", `value ${kind}${value.length > LONG_VALUE ? " long" : ""}`, text);
}
