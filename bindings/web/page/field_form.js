/* The form of a message: its fields with labels, and the message that is made of them. */

import { wordsOfRefusal } from "./build_words.js";
import { differencesOf } from "./comparison.js";
import { $, counted, make, say, shortened } from "./dom.js";
import { Fields } from "./fields.js";

/** The most fields and groups that are shown, and the most characters of a field that can't be changed. */
const MOST_FIELDS = 1000, MOST_READ_ONLY = 2000;

/** The characters of a text from which on its field has several lines. */
const LONG_TEXT = 60;

/** The control of a leaf. */
function controlOf(part) {
  const numbers = part.numbers, text = part.newText;
  if (part.isReadOnly) return readOnly(text);
  if (numbers || part.kind === "flag") return choiceOf(numbers || [["yes", "Yes"], ["no", "No"]], text);
  const isLong = text.length > LONG_TEXT || text.includes("\n");
  const control = isLong ? make("textarea", "", undefined, { rows: 3 }) : make("input", "", undefined, { type: "text" });
  if (part.kind === "number") control.inputMode = "numeric";
  for (const [name, value] of [["autocomplete", "off"], ["spellcheck", "false"]]) control.setAttribute(name, value);
  control.value = text;
  return control;
}

function readOnly(text) {
  const isLong = text.length > LONG_TEXT;
  const control = isLong ? make("textarea", "fixed", undefined, { rows: 2 }) : make("input", "fixed", undefined, { type: "text" });
  control.readOnly = true;
  control.value = shortened(text, MOST_READ_ONLY);
  return control;
}

function choiceOf(pairs, chosen) {
  const control = make("select");
  control.append(...pairs.map(([value, name]) => make("option", "", name, { value })));
  control.value = chosen;
  return control;
}

export class FieldForm {
  /** `page` has the calls and the profile. */
  constructor(page) {
    Object.assign(this, { page, message: null, fields: null, made: null, isCut: false, lines: new Map(), edited: new WeakMap() });
    $("undo-fields").addEventListener("click", () => page.guarded(() => this.#undo()));
    $("go-refused").addEventListener("click", () => this.#goToRefused());
  }

  /** Shows a message, with what was changed of it before. */
  show(message) {
    const { calls, options } = this.page;
    if (this.message === message) return;
    this.leave();
    const fields = this.edited.get(message) || new Fields(calls.parse(message.octets, { ...options, number: message.number }));
    Object.assign(this, { message, fields });
    this.#draw();
    $("fields").parentElement.scrollTop = 0;
    this.#build();
  }

  /** Leaves the message that is shown, and keeps what was changed of it. */
  leave() {
    if (this.fields && this.fields.changes) this.edited.set(this.message, this.fields);
    else if (this.message) this.edited.delete(this.message);
    Object.assign(this, { message: null, fields: null, made: null });
    this.lines.clear();
    $("fields").replaceChildren();
  }

  #draw() {
    const box = $("fields");
    this.lines.clear();
    this.isCut = false;
    box.replaceChildren();
    for (const { title, parts } of this.fields.sections()) {
      if (this.isCut) break;
      const section = make("section", "fields-section");
      section.append(make("h3", "", title));
      this.#addAll(section, parts);
      box.append(section);
    }
    const words = `Only the first ${counted(MOST_FIELDS, "part")} of the message are shown. The others stay as they are.`;
    if (this.isCut) box.append(make("p", "facts", words));
  }

  /** Adds parts: leaves beside each other, and each group in a frame. */
  #addAll(box, parts) {
    let row = null;
    for (const part of parts.flatMap((it) => this.#seen(it))) {
      if (this.lines.size >= MOST_FIELDS) {
        this.isCut = true;
        return;
      }
      if (!part.isLeaf) {
        row = null;
        box.append(this.#group(part));
        continue;
      }
      if (!row) box.append((row = make("div", "fields-row")));
      row.append(this.#leaf(part));
    }
  }

  /** The part, or what is in it where it has no label of its own. */
  #seen(part) {
    return part.isSeenThrough ? part.parts.flatMap((inner) => this.#seen(inner)) : [part];
  }

  #group(part) {
    const frame = make("fieldset", "fields-group"), legend = make("legend"), said = this.#said();
    legend.append(make("span", "", part.label));
    frame.append(legend);
    if (part.canBeRemoved) legend.append(this.#removal(part));
    frame.append(said);
    frame.setAttribute("aria-describedby", said.id);
    this.lines.set(part, { line: frame, control: frame, said });
    this.#addAll(frame, part.parts);
    this.#mark(part);
    return frame;
  }

  #leaf(part) {
    const line = make("div", "field"), entry = make("div", "entry"), control = controlOf(part), said = this.#said();
    const label = make("label", "", part.label);
    control.id = said.id.replace("said", "field");
    label.htmlFor = control.id;
    control.setAttribute("aria-describedby", said.id);
    control.addEventListener("change", () => this.page.guarded(() => this.#change(part, () => part.change(control.value))));
    entry.append(control);
    if (part.canBeRemoved) entry.append(this.#removal(part));
    line.append(label, entry, said);
    this.lines.set(part, { line, control, said });
    this.#mark(part);
    return line;
  }

  /** The place for what is said of a field. */
  #said() {
    return make("p", "field-said", "", { id: `said-${this.lines.size}` });
  }

  #removal(part) {
    const button = make("button", "removal", "", { type: "button" });
    const name = () => {
      button.textContent = part.isRemoved ? "Put back" : "Remove";
      button.setAttribute("aria-label", `${button.textContent} ${part.label}`);
    };
    button.addEventListener("click", () => this.page.guarded(() => this.#change(part, () => {
      part.isRemoved = !part.isRemoved;
      name();
    })));
    name();
    return button;
  }

  #change(part, work) {
    work();
    this.#mark(part);
    this.#build();
  }

  /** Marks a part that is changed, or removed. */
  #mark(part) {
    const { line, control } = this.lines.get(part);
    line.classList.toggle("changed", part.isChanged);
    line.classList.toggle("removed", part.isRemoved);
    if (part.isLeaf) control.disabled = part.isRemoved;
  }

  #undo() {
    this.fields = new Fields(this.fields.message);
    this.#draw();
    this.#build();
    say("The fields are as they were");
    $("fields").focus();
  }

  /** Makes the message of the fields, or shows why there is none. */
  #build() {
    const { calls, options } = this.page;
    for (const { line, control, said } of this.lines.values()) {
      line.classList.remove("refusal");
      control.removeAttribute("aria-invalid");
      said.textContent = "";
    }
    this.made = null;
    $("save-made").disabled = true;
    $("go-refused").hidden = true;
    try {
      this.made = calls.build(this.fields.changed(), options);
      $("save-made").disabled = false;
      this.#showMade();
    } catch (error) {
      if (error.name !== "NotBuilt") throw error;
      this.#showNotBuilt(error);
    }
    $("fields-summary").textContent = this.fields.summary();
    $("undo-fields").disabled = this.fields.changes === 0;
  }

  /** Goes to the field that is refused, or to the first one of the group that is. */
  #goToRefused() {
    const line = document.querySelector("#fields .refusal"), control = line.querySelector("input, select, textarea, button");
    line.scrollIntoView({ block: "center" });
    if (control) (control.disabled ? line.querySelector("button") : control).focus({ preventScroll: true });
  }

  #showMade() {
    const { calls, options } = this.page, { made, message } = this, { changes } = this.fields, size = counted(made.length, "octet");
    $("fields-said").className = "";
    $("fields-said").textContent = `${changes ? counted(changes, "change") : "Nothing is changed"}. The message that is made has ${size}.`;
    const isSame = calls.same(message.octets, made, options);
    $("made-verdict").textContent = `The message that is made is ${isSame ? "the same as the one that was there." : "different:"}`;
    $("made-differences").replaceChildren(...(isSame ? [] : differencesOf(calls, options, [message.octets, made], ["Was there", "Is made"])));
  }

  /** Shows a refusal beside the field or the group that it names, or at the top of the form. */
  #showNotBuilt(refusal) {
    let part = this.fields.find(refusal.path);
    while (part && !this.lines.has(part)) part = part.parent;
    const words = `${wordsOfRefusal(refusal, part ? part.kind : "")} (${refusal.cause}${refusal.pointer ? ` at ${refusal.pointer}` : ""})`;
    $("fields-said").className = "bad";
    $("fields-said").textContent = part ? `No message is made, because of “${part.label}”.` : `No message is made: ${words}`;
    $("go-refused").hidden = !part;
    $("made-verdict").textContent = "No message is made, so there is nothing to compare with.";
    $("made-differences").replaceChildren();
    if (!part) return;
    const { line, control, said } = this.lines.get(part);
    line.classList.add("refusal");
    if (part.isLeaf) control.setAttribute("aria-invalid", "true");
    said.textContent = words;
  }
}
