/* Elements of the page. All text goes into it by textContent. */

export const $ = (id) => document.getElementById(id);

/** An element with a class, a text and attributes. */
export function make(tag, kind = "", text = undefined, attributes = {}) {
  const made = document.createElement(tag);
  if (kind) made.className = kind;
  if (text !== undefined) made.textContent = text;
  for (const [name, value] of Object.entries(attributes)) made.setAttribute(name, value);
  return made;
}

export const grouped = (number) => number.toLocaleString("en-GB");

export const counted = (number, one, more = `${one}s`) => `${grouped(number)} ${number === 1 ? one : more}`;

/** A text, which is cut where it has more than this many characters. */
export const shortened = (text, most) => (text.length > most ? `${text.slice(0, most)} … cut here` : text);

/** Says something to a screen reader. */
export function say(text) {
  $("said").textContent = text;
}
