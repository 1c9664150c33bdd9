/* One message: its elements, its fields, its text, its normal form, and what it is compared with. */

import { $, counted, grouped, make, say, shortened } from "./dom.js";
import { Elements, meaningOfNote, titleOfNote } from "./elements.js";
import { ElementTree } from "./element_tree.js";
import { LineList } from "./line_list.js";
import { MOST_LINKED } from "./links.js";
import { badgeOf } from "./message.js";
import { FieldForm } from "./field_form.js";
import { OctetView } from "./octet_view.js";
import { toHex } from "./octet_text.js";
import { showComparison } from "./comparison.js";
import { showRefusal } from "./refusal_box.js";

const TABS = ["elements", "fields", "text", "normal", "same"];

/** The most messages that the list of those to compare with has. */
const MOST_OFFERED = 2000;

/** The most characters of a value that the details have. */
const MOST_IN_DETAIL = 20000;

export class MessageView {
  /** `page` has the calls, the profile and the messages, and says the name of a message's APDU. */
  constructor(page) {
    Object.assign(this, { page, message: null, elements: null, text: null, starts: [], normal: null, range: null, tab: "elements" });
    this.hex = new OctetView($("hex"), (offset) => this.#pick(offset));
    this.tree = new ElementTree($("tree"), (i, moves) => this.#selected(i, moves));
    this.lines = new LineList($("lines"), 22, (line, i) => this.#fillText(line, i));
    this.form = new OctetView($("normal"));
    this.fields = new FieldForm(page);
    $("open-all").addEventListener("click", () => this.tree.toggleAll(false));
    $("close-all").addEventListener("click", () => this.tree.toggleAll(true));
    $("other").addEventListener("input", () => page.guarded(() => this.#compare()));
    $("others").addEventListener("change", () => {
      $("other").value = $("others").value;
      page.guarded(() => this.#compare());
    });
    for (const tab of TABS) this.#listen(tab);
  }

  #listen(tab) {
    const button = $(`tab-${tab}`);
    button.addEventListener("click", () => this.page.guarded(() => this.open(tab)));
    button.addEventListener("keydown", (event) => {
      const can = TABS.filter((name) => !$(`tab-${name}`).disabled), at = can.indexOf(tab), last = can.length - 1;
      const to = { ArrowRight: at === last ? 0 : at + 1, ArrowLeft: at === 0 ? last : at - 1, Home: 0, End: last }[event.key];
      if (to === undefined) return;
      event.preventDefault();
      this.page.guarded(() => this.open(can[to]));
      $(`tab-${can[to]}`).focus();
    });
  }

  /** Shows a message of the page. */
  show(message) {
    const { calls, options } = this.page, { text } = calls.dump(message.octets, options);
    Object.assign(this, { message, elements: new Elements(text), text: null, normal: null, range: null });
    this.#showTitle();
    showRefusal(message, this.elements.refusal, options.profile, () => this.page.setProfile("module"));
    for (const tab of TABS.slice(1)) $(`tab-${tab}`).disabled = Boolean(message.refusal);
    this.tree.set(this.elements, message);
    this.hex.set(message.octets, message.refusal ? message.refusal.offset : -1);
    this.open(message.refusal ? "elements" : this.tab);
    if (message.refusal) this.#showPlace();
    else this.tree.select(0);
  }

  #showTitle() {
    const { message, page } = this, [kind, word] = badgeOf(message), facts = $("facts");
    $("title").textContent = page.nameOf(message);
    const { number, file, offset, size } = message;
    facts.replaceChildren(`Message ${number} of ${file}, at ${grouped(offset)} · ${counted(size, "octet")}`);
    if (!message.refusal) {
      if (!message.isNormal) facts.append(` · normal form ${counted(message.normalSize, "octet")}`);
      facts.append(make("br"), "SHA-256 of the normal form ", make("code", "", toHex(page.calls.digest(message.octets, page.options))));
    }
    $("badge").className = `badge ${kind}`;
    $("badge").textContent = message.refusal ? `refused at ${grouped(message.refusal.offset)}` : `${word.replace("normal", "in normal form")}`;
    $("copy-link").disabled = size > MOST_LINKED;
    $("copy-link").title = size > MOST_LINKED ? `Only for messages of up to ${grouped(MOST_LINKED)} octets` : "A link that carries this message";
  }

  /** Shows where a message is refused: at the element there, or after the last one that is judged. */
  #showPlace() {
    const { message, elements } = this, last = Math.max(0, message.size - 1), { cause } = message.refusal;
    const isThere = elements.judged < elements.count && (cause !== "Missing" || elements.judged === 0);
    if (elements.count) this.tree.select(isThere ? elements.judged : elements.judged - 1, false);
    else {
      $("detail").replaceChildren(make("p", "path", "No element was read."));
      this.hex.mark(null);
    }
    this.tree.bringRefusal();
    this.hex.centre(Math.min(message.refusal.offset, last));
  }

  /** Opens a view of the message. */
  open(tab) {
    this.tab = tab;
    for (const name of TABS) {
      $(`tab-${name}`).setAttribute("aria-selected", String(name === tab));
      $(`tab-${name}`).tabIndex = name === tab ? 0 : -1;
      $(`panel-${name}`).hidden = name !== tab;
    }
    if (!this.message) return;
    if (tab === "elements") {
      this.tree.lines.draw();
      this.hex.lines.draw();
    } else if (tab === "fields") this.fields.show(this.message);
    else if (tab === "text") this.#showText();
    else if (tab === "normal") this.#showNormal();
    else this.#showOther();
  }

  /** Selects the innermost element that has an octet. */
  #pick(offset) {
    if (!this.elements.count) return;
    const i = this.elements.at(offset), names = this.elements.path(i);
    this.tree.select(i);
    say(i < this.elements.judged ? names.join(", ") : `${names.join(", ")}, not judged`);
  }

  #selected(i, moves) {
    const { elements, message } = this, element = elements.element(i), begin = element.offset;
    const length = begin + (element.isMark ? 0 : element.idSize), content = begin + element.header.length;
    this.range = { begin, length, content, end: elements.end(i, message.size) };
    this.hex.mark(this.range);
    if (moves) this.hex.centre(element.offset);
    this.#showDetail(i, element);
  }

  /** Shows what the octets of an element say. */
  #showDetail(i, element) {
    const names = this.elements.path(i), path = make("p", "path"), pairs = make("dl");
    const add = (name, value, kind = "", more = "") => {
      const cell = make("dd", kind, value);
      if (more) cell.append(make("span", "says", more));
      pairs.append(make("dt", "", name), cell);
    };
    if (names.length > 1) path.append(`${names.slice(0, -1).join(" › ")} › `);
    path.append(make("b", "", names[names.length - 1]));
    if (element.isMark) add("Octets", `00 00 at ${element.offset}, the end of the element before it at this depth`);
    else if (element.isOctets) this.#addOctets(element, add);
    else this.#addHeader(element, add);
    for (const note of element.notes) {
      const title = titleOfNote(note), meaning = meaningOfNote(note);
      add(title, title === "Not normal" ? `${note}. ${meaning}` : meaning, "words");
    }
    $("detail").replaceChildren(path, pairs);
    $("detail").scrollTop = 0;
  }

  /** Adds octets that begin no element. */
  #addOctets({ size, value }, add) {
    const { begin, end } = this.range;
    add("Place", `${begin} to ${end}`, "", counted(size, "octet"));
    add("Octets", shortened(value, MOST_IN_DETAIL));
  }

  #addHeader(element, add) {
    const { header, idSize, size, value } = element, { begin, content, end } = this.range;
    add("Identifier", toHex(header.slice(0, idSize), " "), "", `${element.tag} ${element.isConstructed ? "constructed" : "primitive"}`);
    add("Length", toHex(header.slice(idSize), " "), "", size === null ? "indefinite" : counted(size, "octet"));
    add("Place", `${begin} to ${end}`, "", `content from ${content}`);
    if (value !== null) add("Value", shortened(value, MOST_IN_DETAIL), element.kind);
  }

  #showText() {
    const { calls, options } = this.page, { message } = this;
    if (this.text === null) {
      this.text = calls.show(message.octets, { ...options, number: message.number });
      this.starts = [];
      for (let at = 0; at < this.text.length; at = this.text.indexOf("\n", at) + 1) this.starts.push(at);
    }
    this.lines.set(this.starts.length);
  }

  #fillText(line, i) {
    const end = i + 1 < this.starts.length ? this.starts[i + 1] : this.text.length, text = this.text.slice(this.starts[i], end - 1);
    const at = text.indexOf(" = ");
    if (i === 0 || at < 0) return line.append(make("b", "", text));
    const value = text.slice(at + 3), kind = /^(\w+ )?"/.test(value) ? "string" : /^(TRUE|FALSE)$/.test(value) ? "flag" : "number";
    line.append(text.slice(0, at), make("span", "eq", " = "), make("span", kind, value));
  }

  /** The normal form of the message that is shown. */
  normalForm() {
    this.normal ||= this.page.calls.normalise(this.message.octets, this.page.options);
    return this.normal;
  }

  #showNormal() {
    const form = this.normalForm(), { message } = this;
    $("normal-said").textContent = message.isNormal
      ? `The message is its normal form, of ${counted(form.length, "octet")}`
      : `${counted(form.length, "octet")}; the message has ${grouped(message.size)}`;
    this.form.set(form);
  }

  /** Chooses a message to compare with, and compares. */
  #showOther() {
    const { messages } = this.page, at = messages.indexOf(this.message), number = Number($("other").value);
    $("other").max = String(messages.length);
    if (!messages[number - 1] || number === at + 1) $("other").value = String(at + 1 < messages.length ? at + 2 : 1);
    this.#offerOthers();
    this.#compare();
  }

  /** Lists the messages that one can compare with. */
  #offerOthers() {
    const { page } = this;
    const described = (it, at) => make("option", "", `${at + 1}: ${page.nameOf(it)}, ${counted(it.size, "octet")}, ${it.file}`, { value: at + 1 });
    $("others").replaceChildren(...page.messages.slice(0, MOST_OFFERED).map(described));
  }

  #compare() {
    const { page, message } = this, at = Number($("other").value) - 1, other = page.messages[at];
    const described = (it, place) => ({ at: place, name: page.nameOf(it), octets: it.octets, refusal: it.refusal });
    const nameOf = ({ size, number, file }) => `${page.nameOf(other)}, ${counted(size, "octet")}, message ${number} of ${file}`;
    $("other-name").textContent = other ? nameOf(other) : "";
    $("others").value = $("other").value;
    showComparison(page.calls, page.options, described(message, page.messages.indexOf(message)), other && described(other, at));
  }

  /** Empties the view. */
  clear() {
    Object.assign(this, { message: null, elements: null, text: null, normal: null, range: null });
    this.fields.leave();
    for (const lines of [this.tree.lines, this.lines]) lines.set(0);
    for (const octets of [this.hex, this.form]) octets.set(new Uint8Array(0));
  }

  /** The lists that are printed. */
  printed() {
    return { elements: [this.tree.lines, this.hex.lines], fields: [], text: [this.lines], normal: [this.form.lines], same: [] }[this.tab];
  }
}
