/* Names of files on the page: node --test names.test.mjs. The octets of the letters are worked out from their numbers (RFC 3629). */
import assert from "node:assert/strict";
import test from "node:test";
import { shownName } from "../page/names.js";
import { octetsOfText } from "../page/octet_text.js";

test("names without hidden letters are shown as they are", () => {
  for (const name of ["", "plain.ber", "a b.ber", "Études.ber", "日本.ber", "é", "it's", "a\\b", "a$'b", "$x", "😀", "\u00a0"]) assert.equal(shownName(name), name);
});

test("hidden letters are shown by their octets", () => {
  const rows = [
    ["a\u202eb.ber", "$'a\\342\\200\\256b.ber'"],
    ["\u034f", "$'\\315\\217'"],
    ["\u115f\u1160", "$'\\341\\205\\237\\341\\205\\240'"],
    ["x\u17b4\u17b5", "$'x\\341\\236\\264\\341\\236\\265'"],
    ["\u180b\u180f", "$'\\341\\240\\213\\341\\240\\217'"],
    ["\u3164", "$'\\343\\205\\244'"],
    ["\ufe00\ufe0f", "$'\\357\\270\\200\\357\\270\\217'"],
    ["\uffa0", "$'\\357\\276\\240'"],
    ["\u{e0000}\u{e0fff}", "$'\\363\\240\\200\\200\\363\\240\\277\\277'"],
    ["\u{e0100}\u{e01ef}", "$'\\363\\240\\204\\200\\363\\240\\207\\257'"],
    ["\u00ad\u200b\u2028\u2029\ufeff", "$'\\302\\255\\342\\200\\213\\342\\200\\250\\342\\200\\251\\357\\273\\277'"],
    ["\0\x1b\x7f\x85", "$'\\000\\033\\177\\302\\205'"],
    ["a\nb\rc\td", "$'a\\nb\\rc\\td'"],
    ["it's\\\n", "$'it\\'s\\\\\\n'"],
    ["É\n", "$'É\\n'"],
    ["$'x'", "$'$\\'x\\''"],
  ];
  for (const [name, wanted] of rows) assert.equal(shownName(name), wanted);
});

test("no letter of Unicode that is hidden is shown as it is", () => {
  const ranges = [
    [0x00, 0x1f], [0x7f, 0x9f], [0xad, 0xad], [0x34f, 0x34f], [0x61c, 0x61c], [0x115f, 0x1160], [0x17b4, 0x17b5], [0x180b, 0x180f],
    [0x200b, 0x200f], [0x2028, 0x202e], [0x2060, 0x206f], [0x3164, 0x3164], [0xfe00, 0xfe0f], [0xfeff, 0xfeff], [0xffa0, 0xffa0], [0xfff0, 0xfffb],
    [0x1bca0, 0x1bca3], [0x1d173, 0x1d17a], [0xe0000, 0xe0fff],
  ];
  for (const [first, last] of ranges) {
    for (let number = first; number <= last; number++) {
      const letter = String.fromCodePoint(number), shown = shownName(`a${letter}b`);
      assert.ok(!shown.includes(letter) && /^\$'a(\\[0-7]{3}|\\[nrt])+b'$/.test(shown), number.toString(16));
    }
  }
});

test("no two names are shown alike", () => {
  const parts = ["a", "'", "\\", "\n", "\\n", "$'", "\u202e", "\\342\\200\\256"], names = new Set();
  for (const one of parts) for (const two of parts) for (const three of parts) names.add(one + two + three);
  const shown = new Set([...names].flatMap((name) => [shownName(name)]));
  assert.equal(shown.size, names.size);
});

test("a letter that is no digit is shown by its octets where it is hidden", () => {
  assert.throws(() => octetsOfText("74\u202e"), { message: "it is neither hexadecimal nor base64: “$'\\342\\200\\256'” comes after 2 digits" });
  assert.throws(() => octetsOfText("74 zz!"), { message: "it is neither hexadecimal nor base64: “z” comes after 2 digits" });
});
