/* The list of messages, with its filter. */

import { $, counted, grouped, make } from "./dom.js";
import { LineList } from "./line_list.js";
import { badgeOf, kindOf } from "./message.js";

const MESSAGE_HEIGHT = 50;

/** The most messages that the list shows: browsers draw no higher box. */
const MOST_LISTED = 300000;

const FILTERS = { all: "All", other: "Not normal", refused: "Refused" };

const filterButtons = () => document.querySelectorAll("[data-filter]");

export class MessageList {
  /** `choose` is called with the place of a message that is chosen, and `nameOf` says the name of its APDU. */
  constructor(box, choose, nameOf) {
    Object.assign(this, { box, choose, nameOf, messages: [], listed: [], filter: "all", current: -1, isOneFile: true });
    this.lines = new LineList(box, MESSAGE_HEIGHT, (line, at) => this.#fill(line, at));
    box.addEventListener("keydown", (event) => this.#key(event));
    for (const button of filterButtons()) button.addEventListener("click", () => this.setFilter(button.dataset.filter));
  }

  /** Shows how many messages of each kind there are, of inputs with these names. */
  summarise(messages, names, isReading) {
    this.messages = messages;
    const counts = { all: messages.length, normal: 0, other: 0, refused: 0 };
    for (const message of messages) counts[kindOf(message)]++;
    const files = new Set(names);
    this.isOneFile = files.size <= 1;
    const where = this.isOneFile ? [...files][0] || "" : counted(files.size, "file");
    $("summary").textContent = `${counted(messages.length, "message")}${isReading ? ", reading…" : ""} in ${where}`;
    for (const button of filterButtons()) {
      const count = counts[button.dataset.filter];
      button.disabled = button.dataset.filter !== "all" && count === 0;
      button.textContent = `${FILTERS[button.dataset.filter]} ${grouped(count)}`;
    }
    this.#offerNormalForms(counts);
    this.setFilter(counts[this.filter] ? this.filter : "all", true);
  }

  #offerNormalForms(counts) {
    const button = $("save-all"), count = counts.normal + counts.other;
    button.disabled = count === 0;
    button.textContent = `Download ${counted(count, "normal form")}`;
    button.title = counts.refused ? "One file, without those that are refused" : "One file";
  }

  setFilter(filter, keepsPlace = false) {
    this.filter = filter;
    for (const button of filterButtons()) button.setAttribute("aria-pressed", String(button.dataset.filter === filter));
    this.listed = [];
    this.messages.forEach((message, at) => {
      if (filter === "all" || kindOf(message) === filter) this.listed.push(at);
    });
    this.lines.set(Math.min(this.listed.length, MOST_LISTED), keepsPlace);
  }

  /** Marks the message that is shown. */
  mark(at) {
    this.current = at;
    if (!this.listed.includes(at)) this.setFilter("all", true);
    this.lines.again();
    const place = this.listed.indexOf(at);
    if (place < 0 || place >= MOST_LISTED) return;
    this.lines.bring(place);
    this.box.setAttribute("aria-activedescendant", `m${at}`);
  }

  #fill(line, place) {
    const at = this.listed[place], message = this.messages[at], [kind, word] = badgeOf(message);
    const states = { role: "option", "aria-selected": at === this.current, "aria-setsize": this.listed.length, "aria-posinset": place + 1 };
    for (const [name, value] of Object.entries(states)) line.setAttribute(name, String(value));
    line.id = `m${at}`;
    const size = counted(message.size, "octet");
    const where = this.isOneFile ? `${size}, at ${grouped(message.offset)}` : `${size} · ${message.file}`;
    const who = make("span", "who");
    who.append(make("b", "", this.nameOf(message)), make("small", "", where));
    line.append(make("span", "n", grouped(at + 1)), who, make("span", `tag ${kind}`, word));
    line.title = `${message.file}, message ${message.number}, at ${grouped(message.offset)}`;
    line.addEventListener("click", () => this.choose(at));
  }

  #key(event) {
    const place = this.listed.indexOf(this.current), page = this.lines.perPage(), count = this.listed.length;
    const step = { ArrowDown: 1, ArrowUp: -1, PageDown: page, PageUp: -page, Home: -count, End: count }[event.key];
    if (!step || !count || event.altKey || event.ctrlKey || event.metaKey) return;
    event.preventDefault();
    this.choose(this.listed[Math.max(0, Math.min(count - 1, place + step))]);
  }
}
