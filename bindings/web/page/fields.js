/* A message as parts that can be changed, of the object that `parse` gives. No part of it is lost: what isn't changed goes back as it was. */

import { namesOfNumbers, spokenName } from "./code_names.js";
import { inSections, isSeenThrough, labelOf } from "./labels.js";

/** The most characters of a text that can be changed. */
const MOST_CHANGED = 20000;

/** A character that no text field shows: a control, but for tabs and line feeds, or the soft hyphen. */
const UNSEEN = /[\0-\x08\x0b-\x1f\x7f-\x9f\xad]/g;

/** The rows that are one of several others: they go with the one that is in them. */
const CHOICES = new Set([
  "person-or-institution-symbol", "name-of-person-or-institution", "delivery-service", "proposed-delivery-service", "shipped-via",
  "e-delivery-details", "results-explanation", "damaged-portion", "user-error-report", "provider-error-report", "encoding",
]);

/** The leaves, and a list of leaves, that are there in each message that has the row round them, or have a default. So they can't be removed. */
const ALWAYS = new Set([
  "answer", "apdu-type", "can-send-checked-in", "can-send-received", "can-send-returned", "can-send-shipped", "conditions", "correlation-information",
  "cost-estimate", "critical", "current-state", "date", "date-checked-in", "date-due-field", "date-of-last-transition",
  "date-of-most-recent-service", "date-received", "date-returned", "document-type-parameters", "e-delivery-mode", "e-delivery-parameters",
  "estimated-date-available", "expiry-flag", "forward-flag", "identifier", "ill-service-type", "item", "medium", "monetary-value", "most-recent-service",
  "no-of-units", "payment-provided", "permission-to-chain", "permission-to-change-send-to-list", "permission-to-forward",
  "permission-to-partition", "place-on-hold", "preference", "protocol-version-num", "provider-status-report", "reason-unfilled",
  "reason-will-supply", "reciprocal-agreement", "renewable", "report-source", "requester-checked-in", "requester-shipped",
  "responder-received", "responder-returned", "retry-flag", "supply-medium-type", "transaction-group-qualifier", "transaction-qualifier",
  "transaction-type", "will-pay-fee",
]);

const isObject = (value) => typeof value === "object" && value !== null;

/** Whether a text is a date or a time, which JSON writes in digits, is said by its row. */
function kindOfText(row) {
  if (row === "time" || row === "delivery-time") return "time";
  return /(^|-)date(-|$)/.test(row) ? "date" : "text";
}

/** What a value of a row is: a "list", a "group", a text in one of two alphabets ("string"), or another leaf. */
function kindOfPart(row, value) {
  if (value === null) return "null";
  if (typeof value === "boolean") return "flag";
  if (typeof value === "string") return kindOfText(row);
  if (!isObject(value) || "number" in value) return "number";
  if (Array.isArray(value)) return value.length ? "list" : "empty";
  if ("octets" in value || "foreign" in value) return "octets";
  if ("general" in value || "visible" in value) return "string";
  return Object.keys(value).length ? "group" : "empty";
}

/** A text whose characters are all seen: those that are not are written as `\x1b`. */
const escaped = (text) => text.replace(UNSEEN, (letter) => `\\x${letter.charCodeAt(0).toString(16).padStart(2, "0")}`);

const parted = (digits, mark) => digits.replace(mark === ":" ? /^(..)(..)(..)$/ : /^(....)(..)(..)$/, `$1${mark}$2${mark}$3`);

/** The value of a part of a kind as a text that a person reads. */
function textOf(kind, value) {
  switch (kind) {
    case "null": return "There";
    case "empty": return "Nothing in it";
    case "flag": return value ? "yes" : "no";
    case "number": return String(isObject(value) ? value.number : value);
    case "date": return parted(value, "-");
    case "time": return parted(value, ":");
    case "string": return Object.values(value)[0];
    case "octets": return "bits" in value ? `${value.octets} (${value.bits} bits)` : value.foreign || value.octets;
    default: return value;
  }
}

/** The value of a part of a kind, which had another, that a text says. What is no number or date stays a text, which `build` refuses. */
function valueOfText(kind, was, text) {
  switch (kind) {
    case "flag": return text === "yes";
    case "number": return wholeNumber(text.trim());
    case "date": return text.trim().replace(/^(\d{4})-(\d\d)-(\d\d)$/, "$1$2$3");
    case "time": return text.trim().replace(/^(\d\d):(\d\d):(\d\d)$/, "$1$2$3");
    case "string": return { [Object.keys(was)[0]]: text };
    default: return text;
  }
}

function wholeNumber(text) {
  if (!/^-?\d+$/.test(text)) return text;
  const number = BigInt(text);
  return BigInt(Number.MIN_SAFE_INTEGER) <= number && number <= BigInt(Number.MAX_SAFE_INTEGER) ? Number(number) : number;
}

/** A part of a message: a leaf, or a group or a list of parts. */
export class Part {
  constructor(row, value, parent) {
    Object.assign(this, { row, value, parent, kind: kindOfPart(row, value), label: labelOf(row), text: null, isRemoved: false, parts: [] });
    if (this.kind === "group") this.parts = Object.entries(value).map(([name, inner]) => new Part(name, inner, this));
    if (this.kind === "list") this.parts = value.map((inner, at) => new Part(row, inner, this).numbered(at, value.length));
  }

  /** The item of a list, which has its number in its label where there are several. */
  numbered(at, count) {
    if (count > 1) this.label = `${this.label} ${at + 1}`;
    return this;
  }

  get isLeaf() {
    return this.kind !== "group" && this.kind !== "list";
  }

  get isItem() {
    return this.parent !== null && this.parent.kind === "list";
  }

  /** True for a group that has no label of its own. */
  get isSeenThrough() {
    return this.kind === "list" || (this.kind === "group" && !this.isItem && isSeenThrough(this.row));
  }

  /** True if it is in an EXTERNAL. */
  get isInExternal() {
    for (let part = this.parent; part; part = part.parent) if (part.kind === "group" && "encoding" in part.value) return true;
    return false;
  }

  /** True for a leaf that is shown, and can't be changed. */
  get isReadOnly() {
    if (["null", "empty", "octets"].includes(this.kind) || this.isInExternal) return true;
    const text = textOf(this.kind, this.value);
    return text.length > MOST_CHANGED || text.search(UNSEEN) >= 0;
  }

  get canBeRemoved() {
    return this.isItem || (this.isLeaf && !ALWAYS.has(this.row) && !this.isInExternal);
  }

  /** The text of a leaf as it was. */
  get oldText() {
    const text = textOf(this.kind, this.value);
    return this.isReadOnly ? escaped(text) : text;
  }

  /** The text of a leaf as it is now. */
  get newText() {
    return this.text === null ? this.oldText : this.text;
  }

  /** Changes the text of a leaf. */
  change(text) {
    this.text = text === this.oldText ? null : text;
  }

  get isChanged() {
    return this.text !== null || this.isRemoved;
  }

  /** True if it goes: it is removed, or is a choice or a list, and all that is in it goes. */
  get isGone() {
    const goesWithParts = this.kind === "list" ? !ALWAYS.has(this.row) : this.kind === "group" && CHOICES.has(this.row);
    return this.isRemoved || (goesWithParts && this.parts.every((part) => part.isGone));
  }

  /** The numbers that a number can be, each with its name, and the one that it was; null where they have no names. */
  get numbers() {
    const named = this.kind === "number" ? namesOfNumbers(this.row) : null;
    if (!named) return null;
    const numbers = named.map(([number, name]) => [String(number), `${spokenName(name)} (${number})`]);
    return numbers.some(([number]) => number === this.oldText) ? numbers : [[this.oldText, `${this.oldText} (no name)`], ...numbers];
  }

  /** The value with what was changed. */
  current() {
    const parts = this.parts.filter((part) => !part.isGone);
    if (this.kind === "list") return parts.map((part) => part.current());
    if (this.kind === "group") return Object.fromEntries(parts.map((part) => [part.row, part.current()]));
    return this.text === null ? this.value : valueOfText(this.kind, this.value, this.text);
  }

  /** The part at a step of a path in the changed value. */
  at(step) {
    return this.kind === "list" ? this.parts.filter((part) => !part.isGone)[step] : this.parts.find((part) => part.row === step);
  }

  /** The leaves in it, and itself if it is one. */
  leaves() {
    return this.isLeaf ? [this] : this.parts.flatMap((part) => part.leaves());
  }
}

export class Fields {
  /** `message` is what `parse` gives. */
  constructor(message) {
    this.message = message;
    this.root = new Part("", message.value, null);
  }

  /** The number of parts that are changed. */
  get changes() {
    const counted = (part) => Number(part.isChanged) + part.parts.reduce((sum, inner) => sum + counted(inner), 0);
    return counted(this.root);
  }

  /** The object with what was changed, for `build`. */
  changed() {
    return { ...this.message, value: this.root.current() };
  }

  /** The part that a path in that object leads to: the innermost one. It is the whole message where the path leads to none. */
  find(path) {
    let part = this.root;
    for (const step of path[0] === "value" ? path.slice(1) : []) {
      const next = part.at(step);
      if (!next) break;
      part = next;
    }
    return part;
  }

  /** The parts of the message in sections, with their titles. */
  sections() {
    const parts = new Map(this.root.parts.map((part) => [part.row, part]));
    return inSections([...parts.keys()]).map(({ title, rows }) => ({ title, parts: rows.map((row) => parts.get(row)) }));
  }

  /** Who asks whom for what, in a line. */
  summary() {
    const first = (row, ...path) => {
      const part = this.find(["value", row, ...path]);
      return part.row === (path.at(-1) || row) ? part.leaves().find((leaf) => !leaf.isGone) : undefined;
    };
    const named = (label, leaf) => (leaf ? [`${label} “${leaf.newText}”`] : []);
    const service = first("ill-service-type") || first("shipped-service-type") || first("transaction-results");
    return [
      this.message.apdu, ...named("requester", first("requester-id")), ...named("responder", first("responder-id")),
      ...(service ? [`${labelOf(service.row).toLowerCase()} ${spokenNumber(service)}`] : []), ...named("title", first("item-id", "title")),
    ].join(" · ");
  }
}

/** The number of a leaf, with its name if it has one. */
function spokenNumber(leaf) {
  const found = (leaf.numbers || []).find(([number]) => number === leaf.newText);
  return found ? found[1] : leaf.newText;
}
