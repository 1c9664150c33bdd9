/* The tree of elements, of each test vector of up to 20,000 octets: node --test elements.test.mjs. */
import assert from "node:assert/strict";
import { readFileSync, readdirSync } from "node:fs";
import test from "node:test";
import { load } from "../illcanon.js";
import { Elements, meaningOfNote, titleOfNote } from "../page/elements.js";
import { fromBase64, kindOfFile, octetsOfText, toBase64, toHex } from "../page/octet_text.js";

const VECTORS = new URL("../../../vectors/", import.meta.url), LARGEST = 20000;
const calls = await load();

function* vectors() {
  for (const name of readdirSync(VECTORS).filter((it) => it.endsWith(".json") && it !== "schema.json" && it !== "streams.json")) {
    const { profile = "2", groups } = JSON.parse(readFileSync(new URL(name, VECTORS), "utf8"));
    for (const vector of groups.flatMap((group) => group.vectors)) {
      if (vector.octets !== undefined && vector.octets.length <= 2 * LARGEST) yield { ...vector, profile, octets: Uint8Array.from(Buffer.from(vector.octets, "hex")) };
    }
  }
}

/** Compares a tree with the octets that it is of. */
function checkTree(elements, octets, vector) {
  for (let i = 0; i < elements.count; i++) {
    const { offset, header, isMark, isOctets, value, notes, name } = elements.element(i), end = elements.end(i, octets.length), parent = elements.parents[i];
    assert.deepEqual(header, [...octets.subarray(offset, offset + header.length)], `${vector.id}: header ${i}`);
    if (isOctets) assert.equal(value, toHex(octets.subarray(offset, end), " "), `${vector.id}: octets ${i}`);
    assert.equal(notes.includes("not judged"), i >= elements.judged, `${vector.id}: whether ${i} is judged`);
    assert.ok(name, `${vector.id}: name ${i}`);
    assert.ok(end >= offset + (isMark ? 2 : 0) && end <= octets.length, `${vector.id}: end ${i}`);
    for (const note of notes) assert.ok(meaningOfNote(note), `${vector.id}: the note ${note} has no meaning`);
    if (parent >= 0) assert.ok(parent < i && elements.depths[parent] === elements.depths[i] - 1 && elements.offsets[parent] < offset, `${vector.id}: parent ${i}`);
    if (parent >= 0) assert.ok(end <= elements.end(parent, octets.length), `${vector.id}: ${i} ends in its parent`);
  }
}

/** Compares the elements from the place of a refusal on with the octets there, of which each is in one of them. Returns how many they are. */
function checkRest(elements, octets, vector) {
  const [, place, cause] = /^refused at (\d+): (\w+)/.exec(elements.refusal[0]);
  assert.deepEqual([Number(place), cause], [vector.offset, vector.cause], vector.id);
  let at = vector.offset;
  for (let i = elements.judged; i < elements.count; i++) {
    const { offset, header, value, isMark } = elements.element(i);
    assert.equal(offset, at, `${vector.id}: ${i} follows the one before it`);
    at = value === null && !isMark ? offset + header.length : elements.end(i, octets.length);
  }
  assert.equal(at, octets.length, `${vector.id}: the last octet`);
  return elements.count - elements.judged;
}

test("each header of the tree is what the octets are there", () => {
  let count = 0, valid = 0, unjudged = 0;
  for (const vector of vectors()) {
    const { text, refusal } = calls.dump(vector.octets, { profile: vector.profile }), elements = new Elements(text);
    checkTree(elements, vector.octets, vector);
    assert.equal(elements.refusal !== null, refusal !== null);
    assert.equal(refusal !== null, vector.result === "refused");
    if (refusal) unjudged += checkRest(elements, vector.octets, vector);
    else {
      assert.equal(elements.count, text.split("\n").length - 2, vector.id);
      assert.equal(elements.end(0, vector.octets.length), vector.octets.length, vector.id);
      valid++;
    }
    count++;
  }
  assert.ok(count > 5000 && valid > 2000 && unjudged > 10000, `${count} ${valid} ${unjudged}`);
});

/** An EXPIRED with an extension, whose octets profile 2 does not judge. */
const EXTENDED = "74343032800102a10aa1031b0147a2031b0151a20ca00a80083230323430323239bf31123010800101810100a2803080050000000000";

test("what follows the place of a refusal is in the tree, and is not judged", () => {
  const octets = Uint8Array.from(Buffer.from(EXTENDED, "hex")), elements = new Elements(calls.dump(octets).text);
  assert.deepEqual([elements.judged, elements.count, elements.judgedShown], [11, 20, 11]);
  assert.equal(elements.refusal[0], "refused at 33: LeftOut Expired.expired-extensions");
  assert.deepEqual(elements.path(17), ["Expired", "expired-extensions", "[UNIVERSAL 16] SEQUENCE", "[2]", "[UNIVERSAL 16] SEQUENCE", "[UNIVERSAL 5] NULL"]);
  const { name, value, notes, isJudged } = elements.element(13);
  assert.deepEqual([name, value, notes, isJudged], ["[0]", "01", ["not judged"], false]);
  assert.deepEqual(notes.map(titleOfNote), ["Not judged"]);
  assert.deepEqual([11, 12, 15, 16, 17, 18, 19].map((i) => elements.end(i, octets.length)), [54, 54, 54, 52, 50, 52, 54]);
  elements.isClosed[1] = 1;
  elements.show();
  assert.deepEqual([[...elements.shown], elements.judgedShown], [[0, 1], 2]);
  elements.isClosed[1] = 0;
  elements.isClosed[3] = elements.isClosed[11] = 1;
  elements.show();
  assert.deepEqual([[...elements.shown], elements.judgedShown], [[0, 1, 2, 3, 8, 9, 10, 11], 7]);
});

test("octets that begin no element are one line", () => {
  const octets = Uint8Array.from({ length: 1048577 }), elements = new Elements(calls.dump(octets).text), { name, value, size, notes } = elements.element(0);
  assert.deepEqual([elements.judged, elements.count], [0, 1]);
  assert.deepEqual([name, size, value.length, notes], ["octets", 1048576, 3145727, ["not judged"]]);
  assert.deepEqual([elements.end(0, 1048577), elements.at(500), elements.path(0)], [1048576, 0, ["octets"]]);
});

test("an element of the indefinite form ends with its end mark", () => {
  const octets = Uint8Array.from(Buffer.from("74803080800102a180a1801b01470000a2801b015100000000a280a080800832303234303232390000000000000000", "hex"));
  const elements = new Elements(calls.dump(octets).text), named = (name) => [...Array(elements.count).keys()].find((i) => elements.element(i).name === name);
  assert.equal(elements.end(named("transaction-group-qualifier"), 47), 16);
  assert.equal(elements.end(named("transaction-id"), 47), 25);
  assert.equal(elements.end(0, 47), 47);
  assert.deepEqual(elements.path(named("date")), ["Expired", "service-date-time", "date-time-of-this-service", "date"]);
});

test("a closed element hides what is in it", () => {
  const elements = new Elements(calls.dump(Uint8Array.from(Buffer.from("741f301d800102a10aa1031b0147a2031b0151a20ca00a80083230323430323239", "hex"))).text);
  assert.equal(elements.shown.length, 11);
  elements.isClosed[3] = 1;
  elements.show();
  assert.deepEqual([...elements.shown], [0, 1, 2, 3, 8, 9, 10]);
  assert.equal(elements.shown[elements.placeOf(5)], 3);
  assert.equal(elements.at(12), 5);
});

test("texts of octets are read", () => {
  const octets = Uint8Array.from({ length: 256 }, (_, octet) => octet);
  for (const text of [toHex(octets), toHex(octets, " "), toHex(octets, ", 0x"), toHex(octets, "\\x"), Buffer.from(octets).toString("base64"), toBase64(octets)]) {
    assert.deepEqual(octetsOfText(text), octets);
  }
  assert.equal(toBase64(octets), Buffer.from(octets).toString("base64url"));
  assert.deepEqual(octetsOfText("-----BEGIN X-----\ndB8w\n-----END X-----"), Uint8Array.of(0x74, 0x1f, 0x30));
  assert.throws(() => octetsOfText("From: a library\nSubject: ILL\n\ndB8w"), /it is an e-mail/);
  assert.throws(() => octetsOfText("741"), /odd in number/);
  assert.throws(() => octetsOfText("74 é"), /neither hexadecimal nor base64: “é” comes after 2 digits/);
  assert.throws(() => octetsOfText(" \n"), /no octets/);
  assert.throws(() => fromBase64("dB8w5"), /no base64/);
});

/** The first 40 octets of a message as tools write them, and three octets after 64 zeros. */
const DUMPS = {
  xxd: `00000000: 7481 2930 8126 8081 0102 a181 0ea1 8104  t.)0.&..........
00000010: 1b81 0147 a281 041b 8101 51a2 810e a081  ...G......Q.....
00000020: 0b80 8108 3230 3234                      ....2024`,
  "xxd -g1 -u": `00000000: 74 81 29 30 81 26 80 81 01 02 A1 81 0E A1 81 04  t.)0.&..........
00000010: 1B 81 01 47 A2 81 04 1B 81 01 51 A2 81 0E A0 81  ...G......Q.....
00000020: 0B 80 81 08 32 30 32 34                          ....2024\r`,
  "hexdump -C": `00000000  74 81 29 30 81 26 80 81  01 02 a1 81 0e a1 81 04  |t.)0.&..........|
00000010  1b 81 01 47 a2 81 04 1b  81 01 51 a2 81 0e a0 81  |...G......Q.....|
00000020  0b 80 81 08 32 30 32 34                           |....2024|
00000028`,
  "od -A d -t x1": `0000000 74 81 29 30 81 26 80 81 01 02 a1 81 0e a1 81 04
0000016 1b 81 01 47 a2 81 04 1b 81 01 51 a2 81 0e a0 81
0000032 0b 80 81 08 32 30 32 34
0000040`,
  "od -t x1": `0000000 74 81 29 30 81 26 80 81 01 02 a1 81 0e a1 81 04
0000020 1b 81 01 47 a2 81 04 1b 81 01 51 a2 81 0e a0 81
0000040 0b 80 81 08 32 30 32 34
0000050`,
};
const SQUEEZED = "0000000 00 00 00 00 00 00 00 00 00 00 00 00 00 00 00 00\n*\n0000064 61 62 63\n0000067\n";

test("hex dumps are read", () => {
  const octets = Uint8Array.from(readFileSync(new URL("../../../examples/expired-long-form.ber", import.meta.url)).subarray(0, 40));
  for (const [tool, text] of Object.entries(DUMPS)) {
    assert.deepEqual(octetsOfText(text), octets, tool);
    assert.equal(kindOfFile(new TextEncoder().encode(text)), "hex dump", tool);
  }
  assert.deepEqual(octetsOfText(SQUEEZED), Uint8Array.of(...new Uint8Array(64), 0x61, 0x62, 0x63));
  const lines = DUMPS["hexdump -C"].split("\n");
  assert.throws(() => octetsOfText([lines[0], ...lines.slice(2)].join("\n")), { message: "it is a hex dump, and its line 2 has the offset 00000020, after 16 octets" });
  assert.throws(() => octetsOfText([...lines.slice(0, 2), "and so on"].join("\n")), { message: "it is a hex dump, and its line 3 is none" });
  assert.throws(() => octetsOfText(lines.slice(0, 1).concat("*").join("\n")), { message: "it is a hex dump, and its last line is missing" });
});

test("files are octets or text", () => {
  const encoded = (text) => new TextEncoder().encode(text);
  assert.equal(kindOfFile(encoded("74 1F\r\n30")), "hexadecimal");
  assert.equal(kindOfFile(encoded("dB8wHYABAqEKoQMbAUeiAxsBUaIMoAqACDIwMjQwMjI5\n")), "base64");
  assert.equal(kindOfFile(encoded("t0")), "octets");
  for (const head of ["From: a library\n", "From a@b Tue Dec  1\n", "Received: by", "X-Mailer: c"]) assert.equal(kindOfFile(encoded(head)), "e-mail");
  assert.equal(kindOfFile(encoded("0000000 of these!")), "octets");
  assert.equal(kindOfFile(new Uint8Array(0)), "octets");
  for (const name of ["every-part.ber", "module.ber", "expired-long-form.ber"]) {
    assert.equal(kindOfFile(readFileSync(new URL(`../../../examples/${name}`, import.meta.url))), "octets");
  }
});
