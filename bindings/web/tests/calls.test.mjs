/* The calls for JavaScript in Node: node --test calls.test.mjs. Expected values are worked out by hand, or are those of other programs. */
import assert from "node:assert/strict";
import { execFileSync } from "node:child_process";
import { createHash } from "node:crypto";
import { readFileSync } from "node:fs";
import test from "node:test";
import * as module from "illcanon";

const { BUILD_CAUSES, CAUSES, LIMIT, LINE_LIMIT, NotBuilt, OutOfMemory, Refused, Stopped, load } = module;
const of = (hex) => Uint8Array.from(Buffer.from(hex, "hex"));
const file = (name) => new Uint8Array(readFileSync(new URL(`../../../examples/${name}`, import.meta.url)));
const WASM = new URL("../build/illcanon.wasm", import.meta.url);

const EXPIRED = of("741f301d800102a10aa1031b0147a2031b0151a20ca00a80083230323430323239");
const INDEFINITE = of("74803080800102a180a1801b01470000a2801b015100000000a280a080800832303234303232390000000000000000");
const EXTENDED = of("742e302c800102a10aa1031b0147a2031b0151a20ca00a80083230323430323239bf310c300a800101810100a2020500");
const MISSING = of("748030808001020000");
const TEXT = `message 7 Expired
protocol-version-num = 2
transaction-id.transaction-group-qualifier = general "G"
transaction-id.transaction-qualifier = general "Q"
service-date-time.date-time-of-this-service.date = 20240229
`;
const REFUSED_TEXT = `message 7: refused
      0  74 80  Expired  (indefinite)
      2    30 80  SEQUENCE  (indefinite)
      4      80 01  protocol-version-num = 2
refused at 7: Missing Expired.transaction-id
    the element ends before a mandatory part
    clause X.690, 8.9.3 and 8.14, with the types of ISO 10161-1
    path Expired
    found the end of the element
    due [1] transaction-id
      7    00 00  end mark  (not judged)
`;
const VALUE = {
  "protocol-version-num": 2,
  "transaction-id": { "transaction-group-qualifier": { general: "G" }, "transaction-qualifier": { general: "Q" } },
  "service-date-time": { "date-time-of-this-service": { date: "20240229" } },
};
const LINE = JSON.stringify({ apdu: "Expired", value: VALUE });
const WRONG_FORM = '      2    10 00  [UNIVERSAL 16] SEQUENCE = ""  (not judged)';

const calls = await load();

/** Each call that takes options, on a message. */
const EACH = {
  ...Object.fromEntries(["normalise", "check", "show", "json", "parse", "digest", "dump", "messages"].map((name) => [name, (octets, options) => calls[name](octets, options)])),
  same: (octets, options) => calls.same(octets, octets, options),
  build: (octets, options) => calls.build(LINE, options),
};

/** An EXPIRED in normal form that has as many octets as a message may have, and then zeros: nearly all are of its transaction-qualifier. */
function greatestMessage(zeros = 0) {
  const octets = new Uint8Array(1048576 + zeros);
  octets.fill(0x51, 0, 1048576);
  octets.set(of("74830ffffb" + "30830ffff6" + "800102" + "a1830fffe0" + "a1031b0147" + "a2830fffd6" + "1b830fffd1"));
  octets.set(of("a20ca00a80083230323430323239"), 1048576 - 14);
  return octets;
}

/** An element of 900,000,000 octets, which is no message, and whose end is looked for in more memory than there is. */
function hugeElement() {
  const octets = new Uint8Array(900000000);
  octets.set(of("748435a4e8fa"));
  return octets;
}

test("a message has one normal form", () => {
  assert.deepEqual(calls.normalise(INDEFINITE), EXPIRED);
  assert.deepEqual(calls.normalise(file("expired-long-form.ber")), EXPIRED);
  assert.equal(calls.check(EXPIRED), true);
  assert.equal(calls.check(INDEFINITE), false);
  assert.equal(calls.same(INDEFINITE, EXPIRED), true);
  assert.equal(calls.same(EXPIRED, [...calls.messages(file("every-part.ber"))][0].octets), false);
});

test("the digest is SHA-256 of the normal form", () => {
  assert.equal(Buffer.from(calls.digest(INDEFINITE)).toString("hex"), createHash("sha256").update(EXPIRED).digest("hex"));
});

test("a message is shown", () => {
  assert.equal(calls.show(INDEFINITE, { number: 7 }), TEXT);
  assert.equal(calls.show(EXPIRED).split("\n")[0], "message 1 Expired");
  assert.equal(calls.show(EXPIRED, { number: 4294967295 }).split("\n")[0], "message 4294967295 Expired");
});

test("a message is written element by element", () => {
  const { text, refusal } = calls.dump(EXPIRED, { number: 3 });
  assert.equal(refusal, null);
  const lines = text.trimEnd().split("\n");
  assert.equal(lines[0], "message 3: Expired, 33 octets, normal");
  assert.equal(lines.length, 12);
  assert.match(lines[3], /^ +4 +80 01  protocol-version-num = 2$/);
});

test("a refused message is written with the refusal at its place, and the rest as not judged", () => {
  const { text, refusal } = calls.dump(MISSING, { number: 7 });
  assert.deepEqual([refusal.offset, refusal.cause, refusal.part], [7, "Missing", "Expired.transaction-id"]);
  assert.equal(text, REFUSED_TEXT);
  const { text: short } = calls.dump(of("74021000"));
  assert.deepEqual(short.trimEnd().split("\n").slice(6), ["    found [UNIVERSAL 16] SEQUENCE primitive: 10", "    due [UNIVERSAL 16] SEQUENCE constructed: 30", WRONG_FORM]);
  const { text: trailed } = calls.dump(Uint8Array.from([...EXPIRED, 5, 1]));
  assert.match(trailed, /\nrefused at 33: TrailingBytes\n(    .*\n)+ {5}33  05 01  \[UNIVERSAL 5\] NULL = ""  \(cut short, not judged\)\n$/);
});

test("a message is a line of JSON, and an object", () => {
  const head = { number: 7, offset: 9, octets: 47, apdu: "Expired" };
  const line = `${JSON.stringify({ ...head, normal: false, value: VALUE })}\n`;
  assert.equal(calls.json(INDEFINITE, { number: 7, offset: 9 }), line);
  assert.deepEqual(calls.parse(INDEFINITE, { number: 7, offset: 9 }), JSON.parse(line));
  assert.deepEqual(calls.parse(EXPIRED), { number: 1, offset: 0, octets: 33, apdu: "Expired", normal: true, value: VALUE });
  assert.deepEqual(calls.parse(EXPIRED, { profile: "module", offset: 2 ** 53 - 1 }), {
    number: 1, offset: 2 ** 53 - 1, octets: 33, apdu: "Expired", profile: "module", normal: true, value: VALUE,
  });
  const extensions = [{ identifier: 1, critical: false, item: { foreign: "0500" } }];
  assert.deepEqual(calls.parse(EXTENDED, { profile: "module" }).value["expired-extensions"], extensions);
});

test("a message is built of an object, a text or octets", () => {
  const octets = new TextEncoder().encode(`x${LINE}`), lines = [LINE, ` ${LINE}\n`, octets.subarray(1), octets.slice(1).buffer, new DataView(octets.buffer, 1)];
  for (const line of [...lines, { value: VALUE, apdu: "Expired" }, { ...calls.parse(INDEFINITE), offset: 2n ** 80n }, Object.assign(Object.create(null), JSON.parse(LINE))]) {
    assert.deepEqual(calls.build(line), EXPIRED);
  }
  const message = calls.parse(EXPIRED);
  message.value["service-date-time"]["date-time-of-this-service"].date = "20270101";
  assert.deepEqual(calls.build(message), of("741f301d800102a10aa1031b0147a2031b0151a20ca00a80083230323730313031"));
  const module = calls.parse(EXTENDED, { profile: "module" });
  assert.deepEqual(calls.build(module, { profile: "module" }), calls.normalise(EXTENDED, { profile: "module" }));
  assert.throws(() => calls.build(module), { name: "NotBuilt", cause: "OtherProfile", pointer: "/profile" });
});

test("a message is built with its defaults", () => {
  const start = "800102a10aa1031b0147a2031b0151a20ca00a80083230323430323239", flags = "ab0c800100810100820101830101";
  const optional = { "can-send-received": false, "can-send-returned": false, "requester-shipped": 1, "requester-checked-in": 1 };
  const request = { apdu: "ILL-Request", value: { ...VALUE, "ill-service-type": ["loan"], "requester-optional-messages": optional, "item-id": {} } };
  const normal = of(`61343032${start}a9030a0101${flags}b000`);
  for (const profile of ["2", "module"]) {
    assert.deepEqual(calls.build(request, { profile }), normal);
    assert.deepEqual(calls.build(request, { profile, defaults: false }), normal);
    const spelled = calls.build(request, { profile, defaults: true });
    assert.deepEqual(spelled, of(`6140303e${start}850101a9030a0101${flags}8e0103b000950100960100`));
    assert.deepEqual(calls.normalise(spelled, { profile }), normal);
  }
  assert.throws(() => calls.build({}, { defaults: true }), { message: "not built at /apdu: MissingMember", number: 7 });
  for (const defaults of [1, "true", null]) assert.throws(() => calls.build(request, { defaults }), TypeError);
});

test("numbers past 53 bits are BigInt, and exact", () => {
  const rows = [
    [2 ** 53 - 1, "071fffffffffffff"], [-(2 ** 53 - 1), "07e0000000000001"], [2n ** 53n, "0720000000000000"], [-(2n ** 53n), "07e0000000000000"],
    [2n ** 53n + 1n, "0720000000000001"], [2n ** 63n - 1n, "087fffffffffffffff"], [-(2n ** 63n), "088000000000000000"], [0, "0100"], [-1, "01ff"],
  ];
  for (const [number, content] of rows) {
    const size = content.length / 2, octets = of(`74${(30 + size - 1).toString(16)}30${(28 + size - 1).toString(16)}80${content}a10aa1031b0147a2031b0151a20ca00a80083230323430323239`);
    const message = { apdu: "Expired", value: { ...VALUE, "protocol-version-num": number } };
    assert.deepEqual(calls.build(message), octets);
    assert.deepEqual(calls.parse(octets).value, message.value);
    assert.deepEqual(calls.build({ apdu: "Expired", value: { ...VALUE, "protocol-version-num": BigInt(number) } }), octets);
  }
  assert.throws(() => calls.build({ apdu: "Expired", value: { ...VALUE, "protocol-version-num": 2n ** 63n } }), { cause: "NumberTooLong", pointer: "/value/protocol-version-num" });
});

test("each octet of a text is the character of its number", () => {
  const general = Array.from({ length: 256 }, (_, octet) => String.fromCharCode(octet)).join(""), profile = "module";
  const octets = calls.build({ apdu: "Lost", value: { ...VALUE, note: { general: `${general}:12345678901234567890,"\\` } } }, { profile });
  assert.ok(Buffer.from(octets).includes(Uint8Array.from({ length: 256 }, (_, octet) => octet)));
  assert.equal(calls.parse(octets, { profile }).value.note.general, `${general}:12345678901234567890,"\\`);
  assert.throws(() => calls.build({ apdu: "Lost", value: { ...VALUE, note: { general: "\u0100" } } }), { cause: "BadCharacter", pointer: "/value/note/general" });
});

test("what says no message is refused with the cause and the place", () => {
  const rows = [
    ["", "NotJson", "", []],
    ["{", "NotJson", "", []],
    ["\ufeff{}", "NotJson", "", []],
    ...["\ud83d", "\ude00", "\ude00\ud83d", "\ud83d\ud83d\ude00", "\ud83d\ude00\ude00"].map((half) => [LINE.replace("G", half), "NotJson", "", []]),
    [`${LINE}\ud83d`, "NotJson", "", []],
    [LINE.replace("G", "\ud83d\ude00"), "BadCharacter", "/value/transaction-id/transaction-group-qualifier/general", ["value", "transaction-id", "transaction-group-qualifier", "general"]],
    [of("7b22ff227d"), "NotJson", "", []],
    [[], "WrongType", "", []],
    [null, "WrongType", "", []],
    [7, "WrongType", "", []],
    [{}, "MissingMember", "/apdu", ["apdu"]],
    ['{"apdu":"Expired","apdu":"Expired"}', "RepeatedMember", "/apdu", ["apdu"]],
    [{ "a/b~1": 1 }, "UnknownMember", "/a~1b~01", ["a/b~1"]],
    [{ apdu: "Expired", value: { ...VALUE, 0: 1 } }, "UnknownMember", "/value/0", ["value", "0"]],
    [{ apdu: "Expired", value: { "\u00e9\u{1f4da}": 1 } }, "UnknownMember", "/value/\u00e9\u{1f4da}", ["value", "\u00e9\u{1f4da}"]],
    [{ apdu: "Forward-Notification" }, "LeftOut", "/apdu", ["apdu"]],
    [{ apdu: "ILL-Request", value: { ...VALUE, "ill-service-type": [1, "x"] } }, "UnknownName", "/value/ill-service-type/1", ["value", "ill-service-type", 1]],
  ];
  for (const [message, cause, pointer, path] of rows) {
    assert.throws(() => calls.build(message), (error) => {
      assert.ok(error instanceof NotBuilt && error instanceof Error && !(error instanceof Refused));
      assert.deepEqual([error.name, error.cause, error.number, error.pointer, error.path], ["NotBuilt", cause, BUILD_CAUSES.indexOf(cause) + 1, pointer, path]);
      return true;
    });
  }
  assert.throws(() => calls.build({}), { message: "not built at /apdu: MissingMember", number: 7 });
  assert.throws(() => calls.build("x"), { message: "not built: NotJson", number: 1 });
});

test("a pointer may be longer than the line's first buffer", () => {
  const name = "x".repeat(3000000);
  assert.throws(() => calls.build({ [name]: 1 }), { cause: "UnknownMember", pointer: `/${name}` });
});

test("what JSON doesn't have is not changed in silence", () => {
  const holding = (value) => ({ apdu: "Expired", value: { ...VALUE, "protocol-version-num": value } });
  for (const number of [2 ** 53, -(2 ** 53), 1e300, 1.5, NaN, Infinity, -Infinity, 5e-324]) {
    for (const message of [number, holding(number), [number]]) assert.throws(() => calls.build(message), RangeError);
  }
  for (const value of [undefined, () => 1, Symbol("x"), new Date(0), new Map(), new Set(), /x/, Promise.resolve(), new Number(2), new String("2")]) {
    for (const message of [value, holding(value), [value]]) assert.throws(() => calls.build(message), TypeError);
  }
  assert.throws(() => calls.build([, 1]), TypeError);
  assert.throws(() => calls.build(holding(new Uint8Array(1))), TypeError);
  const circle = { apdu: "Expired" };
  circle.value = circle;
  assert.throws(() => calls.build(circle), { cause: "NotJson" });
  const deep = (levels) => (levels === 1 ? [] : [deep(levels - 1)]);
  assert.deepEqual(calls.build({ ...JSON.parse(LINE), file: deep(127) }), EXPIRED);
  assert.throws(() => calls.build({ ...JSON.parse(LINE), file: deep(128) }), { cause: "NotJson" });
});

test("the longest line is built, and one octet more is refused", async () => {
  const calls = await load(), longest = LINE.padEnd(16777216);
  assert.equal(LINE_LIMIT, longest.length);
  assert.deepEqual(calls.build(longest), EXPIRED);
  for (const line of [`${longest} `, `${longest}\ud800`, LINE.padEnd(500000000), new Uint8Array(900000000)]) assert.throws(() => calls.build(line), { cause: "LineTooLong" });
  assert.throws(() => calls.build(longest.replace("G", "\ud800").slice(0, -4)), { cause: "NotJson" });
  assert.deepEqual(calls.build(LINE), EXPIRED);
});

test("a line takes at most the memory that there is, and gives it back", async () => {
  const calls = await load();
  for (const line of [`[${"0,".repeat(8388606)}0]`, `[${"[],".repeat(5592404)}[]]`]) {
    assert.throws(() => calls.build(line), (error) => error instanceof OutOfMemory || error.cause === "WrongType");
    assert.ok(calls.memorySize < 268435457, String(calls.memorySize));
    assert.deepEqual(calls.build(LINE), EXPIRED);
  }
});

test("each call refuses alike", () => {
  const rows = [
    [new Uint8Array(0), 0, "Truncated", null],
    [EXPIRED.subarray(0, 32), 32, "Truncated", null],
    [Uint8Array.from([...EXPIRED, 0]), 33, "TrailingBytes", null],
    [of("741f301d800102a2"), 7, "UnexpectedTag", null],
    [MISSING, 7, "Missing", "Expired.transaction-id"],
    [of("6280"), 0, "LeftOut", "ILL-APDU.Forward-Notification"],
  ];
  for (const [octets, offset, cause, part] of rows) {
    const refuses = (number) => (error) => {
      assert.ok(error instanceof Refused && error instanceof Error);
      assert.deepEqual([error.offset, error.cause, error.part, error.number], [offset, cause, part, number]);
      return true;
    };
    for (const call of ["normalise", "check", "show", "json", "parse", "digest"]) assert.throws(() => calls[call](octets), refuses(1));
    assert.throws(() => calls.same(octets, octets), refuses(1));
    assert.throws(() => calls.same(EXPIRED, octets), refuses(2));
    assert.ok(refuses(1)(calls.dump(octets).refusal));
  }
  assert.throws(() => calls.check(MISSING), { message: "refused at 7 in message 1: Missing Expired.transaction-id" });
});

test("the module profile is read where it is named", () => {
  assert.throws(() => calls.check(EXTENDED), { cause: "LeftOut", offset: 33 });
  assert.throws(() => calls.check(EXTENDED, { profile: "2" }), { cause: "LeftOut" });
  assert.equal(calls.check(EXTENDED, { profile: "module" }), false);
  const forms = [...calls.messages(file("module.ber"), { profile: "module" })].map(({ octets }) => calls.normalise(octets, { profile: "module" }));
  assert.deepEqual(new Uint8Array(Buffer.concat(forms)), file("module.der"));
});

test("streams are taken apart", () => {
  const octets = file("every-part.ber"), found = [...calls.messages(octets)];
  assert.deepEqual(new Uint8Array(Buffer.concat(found.map((message) => message.octets))), octets);
  assert.deepEqual(new Uint8Array(Buffer.concat(found.map((message) => calls.normalise(message.octets)))), file("every-part.der"));
  assert.deepEqual(found.map(({ number }) => number), found.map((_, at) => at + 1));
  assert.deepEqual([...calls.messages(new Uint8Array(0))], []);
});

test("refused messages are passed over", () => {
  const octets = Buffer.concat([EXPIRED, of("74803003800102" + "0000"), INDEFINITE, of("740430020500"), EXPIRED]);
  const found = [...calls.messages(octets)].map(({ offset, octets: own, refusal, isNormal, isEndKnown }) => [offset, own.length, refusal && refusal.cause, isNormal, isEndKnown]);
  assert.deepEqual(found, [
    [0, 33, null, true, true], [33, 9, "Missing", false, true], [42, 47, null, false, true], [89, 6, "UnexpectedTag", false, true], [95, 33, null, true, true],
  ]);
});

test("the work ends where the end of a refused message can't be known", () => {
  const found = [...calls.messages(Buffer.concat([EXPIRED, of("74ff"), EXPIRED]))];
  assert.deepEqual(found.map(({ isEndKnown, octets }) => [isEndKnown, octets.length]), [[true, 33], [false, 35]]);
  const cut = [...calls.messages(Buffer.concat([EXPIRED, EXPIRED.subarray(0, 20)]))];
  assert.deepEqual([cut[1].refusal.cause, cut[1].refusal.offset, cut[1].isEndKnown], ["Truncated", 20, false]);
});

test("a refused element may be larger than the window of the input", () => {
  const size = 40000000, large = new Uint8Array(size + 6 + EXPIRED.length);
  large.set([0x74, 0x84, size >> 24, (size >> 16) & 255, (size >> 8) & 255, size & 255]);
  large.set(EXPIRED, size + 6);
  const found = [...calls.messages(large)];
  assert.deepEqual(found.map(({ octets, refusal }) => [octets.length, refusal && refusal.cause]), [[size + 6, "TooLong"], [33, null]]);
});

test("other calls may be made between two messages, also after memory ran out", () => {
  const stream = calls.messages(Buffer.concat([EXPIRED, INDEFINITE, EXPIRED])), sizes = [], huge = hugeElement();
  for (const { octets } of stream) {
    sizes.push(octets.length);
    assert.throws(() => [...calls.messages(huge)], OutOfMemory);
    assert.equal(calls.check(EXPIRED), true);
  }
  assert.deepEqual(sizes, [33, 47, 33]);
});

test("memory that runs out is said, and the next call works", () => {
  const huge = hugeElement();
  for (let i = 0; i < 4; i++) {
    assert.throws(() => calls.messages(huge).next(), OutOfMemory);
    assert.deepEqual(calls.normalise(INDEFINITE), EXPIRED);
  }
  assert.ok(calls.memorySize < 16000000, String(calls.memorySize));
});

test("octets that are too many for a message are refused in little memory", async () => {
  const calls = await load();
  for (const size of [67108864, 900000000]) {
    const octets = new Uint8Array(size);
    for (const call of ["normalise", "check", "show", "digest"]) assert.throws(() => calls[call](octets), { name: "Refused", cause: "BadTag", offset: 0 });
    assert.throws(() => calls.same(octets, octets), { cause: "BadTag", number: 1 });
    assert.throws(() => calls.same(EXPIRED, octets), { cause: "BadTag", number: 2 });
    assert.equal(calls.dump(octets).refusal.cause, "BadTag");
  }
  assert.ok(calls.memorySize < 100000000, String(calls.memorySize));
});

test("the greatest message is read, and octets after it are refused", () => {
  const message = greatestMessage();
  assert.equal(message.length, 1048576);
  assert.equal(calls.check(message), true);
  assert.equal(calls.dump(message).refusal, null);
  for (const zeros of [1, 2, 50000000]) {
    const octets = greatestMessage(zeros), wanted = { name: "Refused", cause: "TrailingBytes", offset: 1048576 };
    for (const call of ["normalise", "check", "show", "digest"]) assert.throws(() => calls[call](octets), { ...wanted, number: 1 });
    assert.throws(() => calls.same(octets, message), { ...wanted, number: 1 });
    assert.throws(() => calls.same(message, octets), { ...wanted, number: 2 });
    const { cause, offset } = calls.dump(octets).refusal;
    assert.deepEqual([cause, offset], ["TrailingBytes", 1048576]);
    const [first] = calls.messages(octets);
    assert.deepEqual([first.octets.length, first.refusal, first.isNormal], [1048576, null, true]);
  }
});

test("generators that are left open take no room from other calls", async () => {
  const calls = await load(), size = EXPIRED.length, count = Math.floor(9000000 / size);
  const hex = Buffer.from(EXPIRED).toString("hex");
  // Ten inputs of 9 MB: of the messages of each the transaction-qualifier is another letter.
  const messages = [..."ABCDEFGHIJ"].map((letter) => of(`${hex.slice(0, 36)}${letter.charCodeAt(0).toString(16)}${hex.slice(38)}`));
  const inputs = messages.map((message) => {
    const octets = new Uint8Array(count * size);
    for (let at = 0; at < octets.length; at += size) octets.set(message, at);
    return octets;
  });
  const open = Array.from({ length: 100 }, (_, at) => calls.messages(inputs[at % 10]));
  for (const stream of open) assert.equal(stream.next().value.offset, 0);
  assert.ok(calls.memorySize < 100000000, String(calls.memorySize));
  assert.deepEqual(calls.normalise(INDEFINITE), EXPIRED);
  assert.equal(calls.dump(new Uint8Array(67108864)).refusal.cause, "BadTag");
  for (let at = 199; at >= 0; at--) {
    const { number, offset, octets, refusal, isNormal } = open[at % 100].next().value;
    assert.deepEqual([offset, octets, refusal, isNormal], [(number - 1) * size, messages[at % 10], null, true]);
  }
  assert.ok(calls.memorySize < 200000000, String(calls.memorySize));
  assert.equal([...open[0]].length, count - 3);
  for (const stream of open) stream.return();
  assert.equal(calls.check(EXPIRED), true);
});

test("no more octets are listed than the greatest message has", () => {
  const { text, refusal } = calls.dump(new Uint8Array(900000000));
  assert.deepEqual([refusal.cause, refusal.offset], ["BadTag", 0]);
  assert.equal(text.match(/^ +0 {2}((00 )*00) {2}octets/m)[1].length, 3 * LIMIT - 1);
});

test("a module that stops is said, and begins anew", async () => {
  const text = `(module (memory (export "memory") 1) (global $count (mut i32) (i32.const 0))
    (func (export "page_take") (param i64) (result i64) i64.const 1024)
    (func (export "page_give") (param i64))
    (func (export "illcanon_check_as") (param i32 i64 i64 i64 i64) (result i32)
      (global.set $count (i32.add (global.get $count) (i32.const 1)))
      (if (i32.gt_u (global.get $count) (i32.const 1)) (then unreachable))
      i32.const 0))`;
  const calls = await load(execFileSync("wat2wasm", ["-", "--output=-"], { input: text }));
  assert.equal(calls.check(EXPIRED), false);
  assert.throws(() => calls.check(EXPIRED), Stopped);
  assert.equal(calls.check(EXPIRED), false);
});

test("octets are any view or buffer, and are not changed", () => {
  const copy = Uint8Array.from([9, ...INDEFINITE]);
  for (const octets of [copy.subarray(1), Buffer.from(INDEFINITE), INDEFINITE.slice().buffer, new DataView(copy.buffer, 1)]) {
    assert.deepEqual(calls.normalise(octets), EXPIRED);
  }
  assert.deepEqual(copy, Uint8Array.from([9, ...INDEFINITE]));
  for (const other of ["74", [0x74], null, undefined, 7]) {
    for (const call of ["normalise", "messages", "dump"]) assert.throws(() => calls[call](other), TypeError);
  }
});

test("profiles and numbers are checked", () => {
  for (const profile of ["1", "3", 3, "toString", null, "", "Module", Symbol("2"), {}]) {
    for (const call of Object.values(EACH)) assert.throws(() => call(EXPIRED, { profile }), TypeError);
  }
  for (const number of [-1, 4294967296, 1.5, "1", null, NaN]) {
    for (const call of ["show", "dump", "json", "parse"]) assert.throws(() => calls[call](EXPIRED, { number }), RangeError);
  }
  for (const offset of [-1, 2 ** 53, 1.5, "1", null, NaN, 1n]) {
    for (const call of ["json", "parse"]) assert.throws(() => calls[call](EXPIRED, { offset }), RangeError);
  }
});

test("options are an object that has no name but those of the call's options", () => {
  const hidden = Object.defineProperty({}, "Profile", { value: "module" });
  const wrong = [
    null, "module", "", 7, 0, 7n, true, Symbol("profile"), () => ({ profile: "module" }), ["module"], new String("module"), { Profile: "module" },
    { profil: "module" }, { profile: "module", strict: true }, { [Symbol("profile")]: "module" }, hidden, EXPIRED,
  ];
  for (const [name, call] of Object.entries(EACH)) {
    for (const options of wrong) assert.throws(() => call(EXPIRED, options), TypeError, `${name} ${String(options)}`);
    for (const options of [undefined, {}, Object.create(null), { profile: undefined }, { profile: "2" }, { profile: "module" }]) assert.doesNotThrow(() => call(EXPIRED, options));
    const isWriting = ["show", "dump", "json", "parse"].includes(name);
    assert[isWriting ? "doesNotThrow" : "throws"](() => call(EXPIRED, { number: 3 }), isWriting ? undefined : TypeError);
  }
});

test("the module is loaded as octets, a URL, a Response or a module", async () => {
  const octets = readFileSync(WASM), compiled = await WebAssembly.compile(octets);
  for (const source of [octets, octets.buffer.slice(octets.byteOffset, octets.byteOffset + octets.length), WASM, WASM.href, new Response(octets), compiled]) {
    assert.equal((await load(source)).check(EXPIRED), true);
  }
  await assert.rejects(load(new Uint8Array(8)), WebAssembly.CompileError);
});

test("the largest message is read, and one octet more is refused", () => {
  assert.equal(LIMIT, 2 ** 20);
  assert.throws(() => calls.check(of("7483100000")), { cause: "TooLong" });
});

test("the causes are those of the header for C", () => {
  const header = readFileSync(new URL("../../c/illcanon.h", import.meta.url), "utf8");
  const rows = [[CAUSES, "illcanon_cause", "ILLCANON_"], [BUILD_CAUSES, "illcanon_build_cause", "ILLCANON_BUILD_"]];
  for (const [causes, type, prefix] of rows) {
    const named = [...header.match(new RegExp(`^enum ${type} \\{([^}]*)\\};`, "m"))[1].matchAll(new RegExp(`^ +${prefix}([A-Z_]+) = (\\d+)`, "gm"))];
    for (const [, name, number] of named) assert.equal(causes[number - 1].toUpperCase(), name.replaceAll("_", ""));
    assert.equal(named.length, causes.length);
  }
});

test("the types are those of what the calls return", () => {
  const types = readFileSync(new URL("../illcanon.d.ts", import.meta.url), "utf8");
  const declared = (name) => {
    const body = types.slice(types.search(new RegExp(`^export (?:interface|class) ${name}\\b`, "m")));
    return Object.fromEntries([...body.slice(0, body.search(/^\}/m)).matchAll(/^  (?:readonly )?(\w+): (.*);$/gm)].map(([, member, type]) => [member, type]));
  };
  const errors = [{}, "x", { "a~": 1 }].map((message) => {
    try {
      return calls.build(message);
    } catch (error) {
      return error;
    }
  });
  const typeOf = (value) => (typeof value === "object" && value !== null ? value.constructor.name : value === null ? "null" : typeof value);
  const found = [...calls.messages(Uint8Array.from([...EXPIRED, ...MISSING]))], refusals = [found[1].refusal, calls.dump(of("6280")).refusal];
  const rows = [["Found", found], ["Refused", refusals], ["NotBuilt", errors], ["Dump", [calls.dump(EXPIRED), calls.dump(MISSING)]], ["Illcanon", [calls]]];
  for (const [name, values] of rows) {
    const members = Object.entries(declared(name));
    assert.ok(members.length > 0, name);
    for (const [member, type] of members) {
      for (const value of values) assert.ok(type.replace(/^readonly \(.*\)\[\]$/, "Array").split(" | ").includes(typeOf(value[member])), `${name}.${member}: ${type}`);
    }
  }
});

test("the types name what the module has", () => {
  const types = readFileSync(new URL("../illcanon.d.ts", import.meta.url), "utf8");
  const named = [...types.matchAll(/^export (?:const|class|function) (\w+)/gm)].map(([, name]) => name);
  assert.deepEqual(named.sort(), Object.keys(module).sort());
  const body = types.slice(types.indexOf("export class Illcanon"));
  const members = [...body.matchAll(/^  (?:readonly )?(\w+)[(:]/gm)].map(([, name]) => name);
  assert.deepEqual(members.sort(), Object.getOwnPropertyNames(module.Illcanon.prototype).filter((name) => name !== "constructor").sort());
});
