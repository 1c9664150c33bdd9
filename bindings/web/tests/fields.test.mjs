/* The fields of a message: node --test fields.test.mjs. What is in the tables of rows is compared with tests/model/tables.json, which
 * compare_tables.py compares with crates/ill_tables. */
import assert from "node:assert/strict";
import { readFileSync, readdirSync } from "node:fs";
import test from "node:test";
import { load } from "../illcanon.js";
import { namesOfNumbers, spokenName } from "../page/code_names.js";
import { Fields, Part } from "../page/fields.js";
import { inSections, isSeenThrough, labelOf } from "../page/labels.js";

const TOP = new URL("../../../", import.meta.url), LARGEST = 20000;
const calls = await load();
const tables = JSON.parse(readFileSync(new URL("tests/model/tables.json", TOP), "utf8"));

/** A value of each leaf, as a line of JSON has it. */
const VALUES = {
  Boolean: true, Integer: 7, Enumerated: 1, IllString: { general: "G" }, IsoDate: "20240229", IsoTime: "235959", PrintableString: "P", Null: null,
  ObjectIdentifier: "1.2.3", ObjectDescriptor: "D", Any: { foreign: "0500" }, OctetString: { octets: "00" }, BitString: { bits: 1, octets: "80" },
};

/** Each row of the tables that is a member of a line of JSON, with the table round it. */
const rows = Object.values(tables).flatMap((table) => table.rows.map((row) => ({ ...row, table }))).filter(({ name, node }) => name && node !== "LeftOut");
const named = (name) => rows.filter((row) => row.name === name);

/** A part of a row, in another one. */
function partOf(name, value) {
  return new Part("", { [name]: value, other: "here" }, null).parts[0];
}

test("dates and times are said by their rows", () => {
  for (const { name, node } of rows.filter((row) => typeof VALUES[row.node] === "string")) {
    const { kind, oldText } = partOf(name, VALUES[node]), wanted = { IsoDate: ["date", "2024-02-29"], IsoTime: ["time", "23:59:59"] }[node];
    assert.deepEqual([kind, oldText], wanted || ["text", VALUES[node]], name);
  }
});

test("each row of numbers with names has them, and no other row", () => {
  const enumerated = new Set(rows.filter(({ node, name }) => node === "Enumerated" && name !== "item").map(({ name }) => name));
  enumerated.add("ill-service-type");
  assert.equal(enumerated.size, 32);
  for (const { name } of rows) assert.equal(Boolean(namesOfNumbers(name)), enumerated.has(name), name);
  for (const name of enumerated) {
    const numbers = namesOfNumbers(name).map(([number]) => number), names = namesOfNumbers(name).map(([, word]) => word);
    assert.ok(numbers.every((number) => Number.isInteger(number) && number > 0) && names.every((word) => /^[a-z][A-Za-z-]+$/.test(word)), name);
    assert.deepEqual([new Set(numbers).size, new Set(names).size], [numbers.length, numbers.length], name);
  }
});

test("the names that the program knows are the same", () => {
  const types = JSON.parse(readFileSync(new URL("tests/model/enumerations.json", TOP), "utf8"));
  const known = types.flatMap(({ rows, numbers }) => rows.map((row) => [row, numbers]));
  assert.ok(known.length >= 32);
  for (const [row, numbers] of known) assert.deepEqual(namesOfNumbers(row), numbers, row);
});

test("names are spoken without hyphens", () => {
  for (const [name, wanted] of [["in-use-on-loan", "In use on loan"], ["nOT-SUPPLIED", "Not supplied"], ["iLL-REQUEST", "ILL request"], ["unrecognized-APDU", "Unrecognized APDU"], ["other", "Other"]]) assert.equal(spokenName(name), wanted);
});

test("a number may have its name with it", () => {
  const value = { number: 1, name: "in-use-on-loan" }, part = partOf("reason-unfilled", value);
  assert.deepEqual([part.kind, part.oldText, part.numbers[0]], ["number", "1", ["1", "In use on loan (1)"]]);
  assert.equal(part.current(), value);
  part.change("3");
  assert.equal(part.current(), 3);
  part.change("1");
  assert.equal(part.current(), value);
  assert.deepEqual(partOf("reason-unfilled", 99n).numbers[0], ["99", "99 (no name)"]);
});

test("a leaf can be removed unless it is always there", () => {
  for (const { name, node, presence, table } of rows) {
    if (!(node in VALUES) || table.choice || name === "item") continue;
    const isAlways = named(name).every((row) => row.presence !== "May");
    assert.equal(partOf(name, VALUES[node]).canBeRemoved, !isAlways, `${name} ${presence}`);
  }
});

test("a choice goes with what is in it, and a group doesn't", () => {
  for (const { name, node } of rows) {
    if (!tables[node] || ["item", "complete-document"].includes(name) || tables[node].name === "External") continue;
    const isChoice = tables[node].choice, isList = tables[node].rows.length === 1 && tables[node].rows[0].name === "item";
    const part = partOf(name, isList ? [{ a: "x" }] : { a: "x" });
    part.parts[0].isRemoved = true;
    assert.equal(part.isGone, isChoice || (isList && name !== "ill-service-type"), name);
  }
});

test("labels and sections are of rows that there are", () => {
  const names = new Set(rows.map(({ name }) => name)), words = (file) => [...readFileSync(new URL(`../page/${file}`, import.meta.url), "utf8").matchAll(/"([a-z][a-z -]*)"/g)].flatMap(([, text]) => text.split(" "));
  for (const word of words("labels.js")) assert.ok(names.has(word), word);
  for (const { name } of rows) assert.match(labelOf(name), /^[A-Z][A-Za-z1. -]+$/, name);
  for (const table of Object.values(tables).filter((it) => !it.choice && it.rows.some(({ name }) => name === "transaction-id"))) {
    const own = table.rows.map(({ name }) => name), sections = inSections(own);
    assert.deepEqual(sections.flatMap((section) => section.rows).sort(), own.toSorted(), table.name);
    assert.equal(sections[0].rows[0], own.find((name) => name === "requester-id" || name === "responder-id"), table.name);
  }
});

/** The labels of a table's rows, with those of rows that are seen through. */
function labelsIn(node) {
  return tables[node].rows.flatMap(({ name, node: inner }) => (isSeenThrough(name) && tables[inner] && !tables[inner].choice ? labelsIn(inner) : [labelOf(name)]));
}

test("no two fields beside each other have one label", () => {
  for (const [node, table] of Object.entries(tables)) {
    if (table.choice) continue;
    const labels = labelsIn(node);
    assert.equal(new Set(labels).size, labels.length, `${node}: ${labels}`);
  }
});

function* messages() {
  for (const name of readdirSync(new URL("vectors/", TOP)).filter((it) => it.endsWith(".json") && !["schema.json", "streams.json", "json.json"].includes(it))) {
    const { profile = "2", groups } = JSON.parse(readFileSync(new URL(`vectors/${name}`, TOP), "utf8"));
    for (const { id, octets, result } of groups.flatMap((group) => group.vectors)) {
      if (octets !== undefined && octets.length <= 2 * LARGEST && result !== "refused") yield { id, profile, octets: Buffer.from(octets, "hex") };
    }
  }
}

test("unchanged fields of each test vector make its normal form, and texts that are set to themselves do, too", () => {
  let count = 0, leaves = 0, fixed = 0;
  for (const { id, profile, octets } of messages()) {
    const fields = new Fields(calls.parse(octets, { profile })), wanted = calls.normalise(octets, { profile });
    assert.deepEqual(calls.build(fields.changed(), { profile }), wanted, id);
    for (const leaf of fields.root.leaves()) {
      leaves++;
      fixed += Number(leaf.isReadOnly);
      if (leaf.isReadOnly) continue;
      leaf.change(leaf.oldText);
      assert.equal(leaf.text, null, `${id}: ${leaf.label}`);
      leaf.text = leaf.oldText;
    }
    assert.deepEqual(calls.build(fields.changed(), { profile }), wanted, `${id}: set again`);
    count++;
  }
  assert.ok(count > 100 && leaves > 1000 && fixed > 10 && fixed < leaves / 2, `${count} messages, ${leaves} leaves, ${fixed} read-only`);
});

test("each leaf of each test vector can be found by its path", () => {
  for (const { profile, octets, id } of messages()) {
    const fields = new Fields(calls.parse(octets, { profile }));
    const walk = (value, path) => {
      const part = fields.find(path);
      assert.equal(part.value, value, `${id}: ${path}`);
      if (!part.isLeaf) for (const [step, inner] of Object.entries(value)) walk(inner, [...path, Array.isArray(value) ? Number(step) : step]);
    };
    walk(fields.message.value, ["value"]);
  }
});

test("changes are made, and refused where they are", () => {
  const message = (octets) => new Fields(calls.parse(Buffer.from(octets, "hex")));
  const fields = message("741f301d800102a10aa1031b0147a2031b0151a20ca00a80083230323430323239"), find = (...path) => fields.find(["value", ...path]);
  const refused = () => {
    try {
      calls.build(fields.changed());
    } catch (error) {
      return [error.cause, fields.find(error.path).label];
    }
    return null;
  };
  find("transaction-id", "transaction-qualifier").change("Ж");
  assert.deepEqual(refused(), ["BadCharacter", "Transaction number"]);
  find("transaction-id", "transaction-qualifier").change("R");
  find("protocol-version-num").change("two");
  assert.deepEqual(refused(), ["WrongType", "Protocol version"]);
  find("protocol-version-num").change("9223372036854775808");
  assert.deepEqual(refused(), ["NumberTooLong", "Protocol version"]);
  find("protocol-version-num").change("9223372036854775807");
  find("service-date-time", "date-time-of-this-service", "date").change("2023-02-29");
  assert.deepEqual(refused(), ["BadDate", "Date"]);
  find("service-date-time", "date-time-of-this-service", "date").change("2024-03-01");
  assert.equal(Buffer.from(calls.build(fields.changed())).toString("hex"), "742630248008" + "7fffffffffffffff" + "a10aa1031b0147a2031b0152a20ca00a8008" + Buffer.from("20240301").toString("hex"));
});
