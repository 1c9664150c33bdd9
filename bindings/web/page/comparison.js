/* Two messages, and the fields in which they differ. */

import { $, counted, grouped, make } from "./dom.js";

/** The most differences, and characters of a value, that are shown. */
const MOST_DIFFERENCES = 500, MOST_IN_CELL = 2000;

/** The values of a message's text, by their fields. */
function fieldsOf(text) {
  const fields = new Map();
  for (const line of text.trimEnd().split("\n").slice(1)) {
    const at = line.indexOf(" = ");
    fields.set(at < 0 ? line : line.slice(0, at), at < 0 ? "" : line.slice(at + 3));
  }
  return fields;
}

/** Says whether two messages are the same: `one` and `other` have their number, name, octets and refusal, and `calls` reads them. */
export function showComparison(calls, options, one, other) {
  const verdict = $("verdict"), table = $("differences");
  table.replaceChildren();
  if (!other) {
    verdict.replaceChildren(make("p", "", `There is no message ${$("other").value}.`));
    return;
  }
  if (other.refusal) {
    const { offset, cause, part } = other.refusal;
    const why = `Message ${grouped(other.at + 1)} is refused at ${grouped(offset)}: ${cause} ${part || ""}`;
    verdict.replaceChildren(make("span", "tag bad", "can’t be compared"), make("p", "", why));
    return;
  }
  const isSame = calls.same(one.octets, other.octets, options);
  const tag = isSame ? make("span", "tag good", "same") : make("span", "tag warn", "different");
  verdict.replaceChildren(tag, make("p", "", wordsFor(isSame, one, other)));
  if (isSame) return;
  table.append(...differencesOf(calls, options, [one.octets, other.octets], [one, other].map(({ at }) => `Message ${grouped(at + 1)}`)));
}

function wordsFor(isSame, one, other) {
  if (!isSame) return one.name === other.name ? "Their normal forms differ." : `One is ${one.name}, the other ${other.name}.`;
  const isEqual = one.octets.length === other.octets.length && one.octets.every((octet, at) => octet === other.octets[at]);
  return isEqual ? "Their octets are equal." : "One APDU in two spellings: their octets differ, and their normal forms are equal.";
}

/** The fields in which two messages differ, and the values of each there, as a table with a title for each message. */
export function differencesOf(calls, options, messages, titles) {
  const table = make("table"), head = make("tr"), [first, second] = messages.map((octets) => fieldsOf(calls.show(octets, options)));
  head.append(...["Field", ...titles].map((title) => make("th", "", title, { scope: "col" })));
  table.append(head);
  const names = [...new Set([...first.keys(), ...second.keys()])].filter((name) => first.get(name) !== second.get(name));
  for (const name of names.slice(0, MOST_DIFFERENCES)) {
    const row = make("tr");
    row.append(make("th", "", name, { scope: "row" }), cellOf(first, name), cellOf(second, name));
    table.append(row);
  }
  if (names.length <= MOST_DIFFERENCES) return [table];
  return [table, make("p", "facts", `The first ${MOST_DIFFERENCES} of ${counted(names.length, "difference")} are shown.`)];
}

function cellOf(fields, name) {
  return fields.has(name) ? make("td", "", fields.get(name).slice(0, MOST_IN_CELL)) : make("td", "none", "not there");
}
