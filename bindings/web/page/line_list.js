/* A list of which only the lines in sight are in the page. */

import { make } from "./dom.js";

/** The number of lines beyond what is in sight that are drawn. */
const MARGIN = 8;

/** The most lines of a list that are printed. */
const MOST_PRINTED = 3000;

export class LineList {
  constructor(box, height, fill) {
    Object.assign(this, { box, height, fill, count: 0, drawn: new Map(), isDue: false, isPrinted: false });
    this.room = make("div", "room", undefined, { role: "presentation" });
    box.append(this.room);
    box.addEventListener("scroll", () => this.later(), { passive: true });
    new ResizeObserver(() => this.later()).observe(box);
  }

  /** Draws once before the next frame. */
  later() {
    if (this.isDue) return;
    this.isDue = true;
    requestAnimationFrame(() => {
      this.isDue = false;
      this.draw();
    });
  }

  set(count, keepsPlace = false) {
    this.count = count;
    this.room.style.height = `${count * this.height}px`;
    if (!keepsPlace) this.box.scrollTop = 0;
    this.again();
  }

  /** Draws each line anew. */
  again() {
    for (const line of this.drawn.values()) line.remove();
    this.drawn.clear();
    this.draw();
  }

  /** Draws the lines in sight, in their order, and removes the others. */
  draw() {
    const { first, last } = this.sight();
    for (const [i, line] of this.drawn) {
      if (i >= first && i < last) continue;
      line.remove();
      this.drawn.delete(i);
    }
    let next = null;
    for (let i = last - 1; i >= first; i--) {
      if (!this.drawn.has(i)) this.room.insertBefore(this.line(i), next);
      next = this.drawn.get(i);
    }
  }

  sight() {
    if (this.isPrinted) return { first: 0, last: Math.min(this.count, MOST_PRINTED) };
    const top = this.box.scrollTop;
    return {
      first: Math.max(0, Math.floor(top / this.height) - MARGIN),
      last: Math.min(this.count, Math.ceil((top + this.box.clientHeight) / this.height) + MARGIN),
    };
  }

  line(i) {
    const line = make("div", "v");
    line.style.height = `${this.height}px`;
    line.style.top = `${i * this.height}px`;
    this.fill(line, i);
    this.drawn.set(i, line);
    return line;
  }

  /** Draws all lines, up to a number, to be printed; or again those in sight. */
  print(isPrinted) {
    this.isPrinted = isPrinted;
    this.draw();
  }

  /** Scrolls so far that a line is in sight. */
  bring(i) {
    const top = i * this.height, sight = this.box.clientHeight;
    if (top < this.box.scrollTop) this.box.scrollTop = top;
    else if (top + this.height > this.box.scrollTop + sight) this.box.scrollTop = top + this.height - sight;
    this.draw();
  }

  /** Scrolls a line to the middle, where it isn't in sight. */
  centre(i) {
    const top = i * this.height, sight = this.box.clientHeight;
    if (top < this.box.scrollTop || top + this.height > this.box.scrollTop + sight) this.box.scrollTop = top - sight / 2;
    this.draw();
  }

  /** The number of lines that a page down goes. */
  perPage() {
    return Math.max(1, Math.floor(this.box.clientHeight / this.height) - 1);
  }
}
