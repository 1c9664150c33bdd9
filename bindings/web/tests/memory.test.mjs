/* The module's interface and its heap: node --test memory.test.mjs. */
import assert from "node:assert/strict";
import { readFileSync } from "node:fs";
import test from "node:test";
import { load } from "../illcanon.js";

const octets = readFileSync(new URL("../build/illcanon.wasm", import.meta.url)), module = await WebAssembly.compile(octets);
const CALLS = "normalise_as check_as same_as show_as json_as build_as build_with_defaults digest_as normalise_next_as dump_as frame".split(" ");
const EXPIRED = Buffer.from("741f301d800102a10aa1031b0147a2031b0151a20ca00a80083230323430323239", "hex");

/** A generator of numbers that are the same in each run. */
function randoms(seed) {
  let state = seed;
  return (below) => {
    state = (Math.imul(state, 1664525) + 1013904223) >>> 0;
    return Math.floor((state / 4294967296) * below);
  };
}

test("the module imports nothing, and exports the calls alone", () => {
  assert.deepEqual(WebAssembly.Module.imports(module), []);
  const names = WebAssembly.Module.exports(module).map(({ name }) => name);
  assert.deepEqual(names.sort(), ["memory", "page_give", "page_take", ...CALLS.map((call) => `illcanon_${call}`)].sort());
});

test("the memory grows in few steps, and up to 1 GiB", () => {
  const { page_take, memory } = new WebAssembly.Instance(module).exports, sizes = new Set();
  for (let i = 0; i < 200000; i++) {
    assert.ok(page_take(200n) > 0n);
    sizes.add(memory.buffer.byteLength);
  }
  assert.ok(sizes.size < 50, String(sizes.size));
  while (page_take(1048000n));
  assert.ok(memory.buffer.byteLength > 1072693248 && memory.buffer.byteLength <= 1073741824, String(memory.buffer.byteLength));
});

test("blocks are aligned, never overlap, and are used again", () => {
  const { page_take, page_give, memory } = new WebAssembly.Instance(module).exports;
  const random = randoms(7), blocks = [];
  let taken = 0;
  for (let i = 0; i < 200000; i++) {
    if (blocks.length < 200 && random(2) === 0) {
      const size = random(10) === 0 ? random(100000) : random(200), at = Number(page_take(BigInt(size))), mark = random(256);
      assert.equal(at % 16, 0);
      assert.ok(at > 0 && at + size <= memory.buffer.byteLength);
      new Uint8Array(memory.buffer, at, size).fill(mark);
      blocks.push({ at, size, mark });
      taken++;
    } else if (blocks.length) {
      const { at, size, mark } = blocks.splice(random(blocks.length), 1)[0];
      assert.ok(new Uint8Array(memory.buffer, at, size).every((octet) => octet === mark), `a block of ${size} at ${at} was overwritten`);
      page_give(BigInt(at));
    }
  }
  assert.ok(taken > 50000);
});

test("memory that isn't there is refused, and the rest stays", () => {
  const { page_take, page_give, memory } = new WebAssembly.Instance(module).exports;
  for (const size of [2n ** 30n, 2n ** 30n + 1n, 2n ** 32n, 2n ** 62n]) assert.equal(page_take(size), 0n);
  let blocks = 0;
  while (page_take(60000000n) !== 0n) blocks++;
  assert.ok(blocks >= 12 && blocks <= 16, String(blocks));
  assert.ok(memory.buffer.byteLength <= 2 ** 30);
  const small = page_take(100n);
  assert.notEqual(small, 0n);
  page_give(small);
});

test("a million calls leave no more memory taken than a thousand", async () => {
  const calls = await load(module);
  const make = (count) => { for (let i = 0; i < count; i++) calls.check(EXPIRED); };
  make(1000);
  const after = calls.memorySize;
  make(1000000);
  assert.equal(calls.memorySize, after);
});
