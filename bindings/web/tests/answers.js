/* What the calls answer of a test vector, in one line. vectors.py writes the line that is expected, and native.py that of the native library. */

const CRC = Uint32Array.from({ length: 256 }, (_, n) => {
  for (let k = 0; k < 8; k++) n = n & 1 ? 0xedb88320 ^ (n >>> 1) : n >>> 1;
  return n;
});

/** The texts of larger inputs are not compared: nobody reads them, and they take minutes. */
const MOST_SHOWN = 2000000;

function crcOf(octets, crc = 0) {
  crc = ~crc;
  for (let i = 0; i < octets.length; i++) crc = CRC[(crc ^ octets[i]) & 255] ^ (crc >>> 8);
  return ~crc >>> 0;
}

const sumOf = (octets) => `${octets.length}:${crcOf(octets).toString(16).padStart(8, "0")}`;
const hexOf = (octets) => Array.from(octets, (octet) => octet.toString(16).padStart(2, "0")).join("");
const wordsOf = (refusal) => `${refusal.cause}@${refusal.offset}${refusal.part ? ` ${refusal.part}` : ""}`;

/** The octets of a test vector: hexadecimal, or runs of it. */
function octetsOf(vector) {
  const runs = vector.runs || [[vector.octets, 1]], parts = [];
  for (const [hex, count] of runs) {
    const unit = Uint8Array.from(hex.match(/../g) || [], (digits) => parseInt(digits, 16)), part = new Uint8Array(unit.length * count);
    if (unit.length === 1) part.fill(unit[0]);
    else for (let i = 0; i < count; i++) part.set(unit, i * unit.length);
    parts.push(part);
  }
  const all = new Uint8Array(parts.reduce((sum, part) => sum + part.length, 0));
  parts.reduce((at, part) => (all.set(part, at), at + part.length), 0);
  return all;
}

/** The line of a test vector: a text, runs of texts, or octets in hexadecimal. */
function lineOf(vector) {
  if (vector.line_octets) return octetsOf({ octets: vector.line_octets });
  return vector.line_runs ? vector.line_runs.map(([text, count]) => text.repeat(count)).join("") : vector.line;
}

/** What `work` returns, as a text, or the refusal that it throws. */
function answerOf(work) {
  try {
    return String(work());
  } catch (error) {
    if (error.name === "NotBuilt") return `${error.cause}@${error.pointer}`;
    if (error.name !== "Refused") throw error;
    return wordsOf(error);
  }
}

/** The answers for one message. */
function messageAnswers(calls, octets, options) {
  const said = [`normalise ${answerOf(() => sumOf(calls.normalise(octets, options)))}`, `check ${answerOf(() => calls.check(octets, options))}`];
  said.push(`digest ${answerOf(() => hexOf(calls.digest(octets, options)))}`);
  said.push(`same ${answerOf(() => calls.same(calls.normalise(octets, options), octets, options))}`);
  said.push(`build ${answerOf(() => sumOf(calls.build(calls.parse(octets, options), options)))}`);
  const first = calls.messages(octets, options).next().value;
  said.push(`first ${first ? (first.refusal ? wordsOf(first.refusal) : `${first.octets.length} ${first.normalSize} ${first.isNormal}`) : "none"}`);
  return said;
}

/** The texts of one message. */
function textAnswers(calls, octets, options) {
  const encoded = (text) => Uint8Array.from(text, (character) => character.charCodeAt(0));
  const { text, refusal } = calls.dump(octets, { ...options, number: 7 });
  const shown = answerOf(() => sumOf(encoded(calls.show(octets, { ...options, number: 7 }))));
  const json = answerOf(() => sumOf(encoded(calls.json(octets, { ...options, number: 7, offset: 9 }))));
  return [`dump ${refusal ? wordsOf(refusal) : "done"} ${sumOf(encoded(text))}`, `show ${shown}`, `json ${json}`];
}

/** The answer for a stream: its messages up to the first that is refused, their normal forms, and the refusal. */
function streamAnswer(calls, octets, options, most) {
  let count = 0, size = 0, crc = 0;
  for (const found of calls.messages(octets, options)) {
    if (count === most) break;
    if (found.refusal) return `stream ${count} ${size}:${crc.toString(16)} ${wordsOf(found.refusal)}`;
    const normal = found.isNormal ? found.octets : calls.normalise(found.octets, options);
    crc = crcOf(normal, crc);
    size += normal.length;
    count++;
  }
  return `stream ${count} ${size}:${crc.toString(16)} end`;
}

/** The lines for a test vector in a profile: what the test vectors say, and what only the native library says. */
export function answers(calls, { vector, profile, isStream, isLine }) {
  const options = { profile };
  if (isLine) return [`build ${answerOf(() => sumOf(calls.build(lineOf(vector), options)))}`, ""];
  const octets = octetsOf(vector);
  if (isStream) return [streamAnswer(calls, octets, options, 1000000), ""];
  const texts = octets.length > MOST_SHOWN ? [] : textAnswers(calls, octets, options);
  return [messageAnswers(calls, octets, options).join("; "), texts.join("; ")];
}
