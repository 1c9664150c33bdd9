/* Names of files, as the program shows them. */

/** A letter that is not seen, or changes how those near it are seen: a control, a format, a separator of lines or paragraphs, an ignorable one. */
const HIDDEN_LETTER = /[\p{Cc}\p{Cf}\p{Zl}\p{Zp}\p{Default_Ignorable_Code_Point}]/u;

/** How octets are written that have a letter of their own. */
const OCTET_LETTERS = { 9: "\\t", 10: "\\n", 13: "\\r", 39: "\\'", 92: "\\\\" };

const NAME_ENCODER = new TextEncoder();

function escapeOf(letter) {
  const octets = [...NAME_ENCODER.encode(letter)];
  return octets.map((octet) => OCTET_LETTERS[octet] || `\\${octet.toString(8).padStart(3, "0")}`).join("");
}

/** The name as it is, where no letter of it is hidden; else between `$'` and `'`, with the octets of each hidden letter in octal digits. No two
 * names are shown alike. */
export function shownName(name) {
  if (!HIDDEN_LETTER.test(name) && !name.startsWith("$'")) return name;
  const letters = Array.from(name, (letter) => (HIDDEN_LETTER.test(letter) || letter === "'" || letter === "\\" ? escapeOf(letter) : letter));
  return `$'${letters.join("")}'`;
}
