/* The calls of illcanon for JavaScript, over octets in memory. Node and browsers load it: see README.md.
 *
 * The calls are those of bindings/c/illcanon.h, compiled to WebAssembly. Addresses and sizes are BigInt there, since the proved code has
 * 64 bits for each.
 */
import { TooDeep, readJson, writeJson } from "./json.js";

/** The greatest number of octets of a message, and of its normal form. */
export const LIMIT = 1048576;

/** The greatest number of octets of a line of JSON that a message is built from. */
export const LINE_LIMIT = 16777216;

/** The causes, by their numbers from 1. */
export const CAUSES = [
  "Truncated", "BadTag", "BadLength", "TooLong", "Overrun", "TooDeep", "UnexpectedTag", "LeftOut", "WrongForm", "Missing", "BadEnd",
  "BadBoolean", "BadInteger", "IntegerTooLong", "BadText", "BadDate", "BadTime", "TrailingBytes", "NormalTooLong", "BadNull", "BadOid",
  "BadBits",
];

/** The causes for which no message is built, by their numbers from 1. */
export const BUILD_CAUSES = [
  "NotJson", "LineTooLong", "WrongType", "UnknownMember", "RepeatedMember", "LeftOut", "MissingMember", "NotOneMember", "UnknownName", "OtherName",
  "NotWhole", "NumberTooLong", "BadCharacter", "BadText", "BadDate", "BadTime", "BadHexadecimal", "BadBits", "BadOid", "BadForeign",
  "NormalTooLong", "OtherProfile",
];

const DONE = 0, REFUSED = 1, SECOND_REFUSED = 2, NEEDS_MORE = 3, NO_ROOM = 4, OUT_OF_MEMORY = 5;

/** The profiles by their names, with their numbers in the module. */
const PROFILES = { 2: 2, module: 3 };

const REFUSAL_SIZE = 72, PART_AT = 8;
const DIGEST_SIZE = 32;

/** The number of octets of an input that are copied to the module at once: a block of 8 MiB, without its head. */
const WINDOW = 8 * LIMIT - 16;

/** The most windows that generators keep in the module between two messages. A generator that lost its window copies it anew. */
const MOST_WINDOWS = 8;

/** The memory above which the module begins anew, so that one large input doesn't hold it. */
const MOST_KEPT = 268435456;

/** Octets that are not exactly one message. */
export class Refused extends Error {
  constructor(offset, cause, part = null, number = 1) {
    super(`refused at ${offset} in message ${number}: ${cause}${part ? ` ${part}` : ""}`);
    this.name = "Refused";
    Object.assign(this, { offset, cause, part, number });
  }
}

/** A line of JSON, or a value, that says no message. */
export class NotBuilt extends Error {
  constructor(cause, pointer = "") {
    super(`not built${pointer ? ` at ${pointer}` : ""}: ${cause}`);
    this.name = "NotBuilt";
    Object.assign(this, { cause, number: BUILD_CAUSES.indexOf(cause) + 1, pointer, path: pathOf(cause, pointer) });
  }
}

/** The steps of a JSON pointer (RFC 6901). */
function pathOf(cause, pointer) {
  const names = pointer.split("/").slice(1).map((name) => name.replaceAll("~1", "/").replaceAll("~0", "~"));
  // No part has a name of digits: such a step is the number of an item, but for a last one that no part has.
  const last = cause === "UnknownMember" ? names.length - 1 : names.length;
  return names.map((name, at) => (at !== last && /^[0-9]+$/.test(name) ? Number(name) : name));
}

/** Memory ran out. Nothing is known of the octets, and the next call begins with all the memory again. */
export class OutOfMemory extends Error {
  constructor() {
    super("out of memory");
    this.name = "OutOfMemory";
  }
}

/** The module stopped, which its proof excludes. Nothing is known of the octets, and the next call begins anew. */
export class Stopped extends Error {
  constructor(cause) {
    super(`the module stopped: ${cause.message}`, { cause });
    this.name = "Stopped";
  }
}

/** Compiles the module: that beside this file, or another, as octets, a URL, a Response or a WebAssembly.Module. */
export async function load(source = new URL("build/illcanon.wasm", import.meta.url)) {
  if (source instanceof WebAssembly.Module) return new Illcanon(source);
  return new Illcanon(await WebAssembly.compile(await octetsFrom(source)));
}

async function octetsFrom(source) {
  if (source instanceof ArrayBuffer || ArrayBuffer.isView(source)) return source;
  if (typeof Response === "function" && source instanceof Response) return source.arrayBuffer();
  const url = new URL(source, import.meta.url);
  if (url.protocol === "file:" && typeof process === "object") return (await import("node:fs/promises")).readFile(url);
  const answer = await fetch(url);
  if (!answer.ok) throw new Error(`${url}: ${answer.status}`);
  return answer.arrayBuffer();
}

/** The octets as a Uint8Array over the same memory. */
function viewOf(octets) {
  if (octets instanceof Uint8Array) return octets;
  if (octets instanceof ArrayBuffer) return new Uint8Array(octets);
  if (ArrayBuffer.isView(octets)) return new Uint8Array(octets.buffer, octets.byteOffset, octets.byteLength);
  throw new TypeError("octets are a Uint8Array, another view, or an ArrayBuffer");
}

/** The octets of a message as a Uint8Array over the same memory. Of too many for one, the first of them say as much as all. */
function messageOf(octets) {
  return viewOf(octets).subarray(0, LIMIT + 1);
}

/** The octets of the line of JSON that a message is, or is written as. Of too many for a line, the first of them say as much as all. */
function jsonOctetsOf(message) {
  if (message instanceof ArrayBuffer || ArrayBuffer.isView(message)) return viewOf(message).subarray(0, LINE_LIMIT + 1);
  const text = (typeof message === "string" ? message : textOfValue(message)).slice(0, LINE_LIMIT + 1), octets = new TextEncoder().encode(text);
  // The encoder replaces half of a surrogate pair, which is no UTF-8.
  if (octets.length <= LINE_LIMIT && hasHalfPair(text)) throw new NotBuilt("NotJson");
  return octets.subarray(0, LINE_LIMIT + 1);
}

/** Says whether a text has half of a surrogate pair. */
function hasHalfPair(text) {
  for (let at = 0; at < text.length; at++) {
    const unit = text.charCodeAt(at);
    if (unit < 0xd800 || unit > 0xdfff) continue;
    const next = text.charCodeAt(++at);
    if (unit > 0xdbff || !(next >= 0xdc00 && next <= 0xdfff)) return true;
  }
  return false;
}

function textOfValue(message) {
  try {
    return writeJson(message);
  } catch (error) {
    throw error instanceof TooDeep ? new NotBuilt("NotJson") : error;
  }
}

/** The options of a call that has options of these names. */
function optionsOf(options, names) {
  if (options === undefined) return {};
  if (typeof options !== "object" || options === null) throw new TypeError("options are an object");
  for (const name of Reflect.ownKeys(options)) if (!names.includes(name)) throw new TypeError(`the call has no option ${String(name)}`);
  return options;
}

/** The number of the profile of a name. */
function profileNumber(profile = "2") {
  if (!Object.hasOwn(PROFILES, profile)) throw new TypeError(`profile ${String(profile)} is neither "2" nor "module"`);
  return PROFILES[profile];
}

/** The number of the profile that the options of a call name which has no other option. */
function readingNumber(options) {
  return profileNumber(optionsOf(options, ["profile"]).profile);
}

/** The number of the profile that the options of `build` name, and whether they ask for defaults. */
function buildingOf(options) {
  const { profile, defaults = false } = optionsOf(options, ["profile", "defaults"]);
  if (typeof defaults !== "boolean") throw new TypeError(`defaults ${String(defaults)}`);
  return { profile: profileNumber(profile), defaults };
}

/** The number of the profile that the options of a call name, and that of the message. */
function writingNumbers(options) {
  const { profile, number = 1 } = optionsOf(options, ["profile", "number"]);
  if (!Number.isInteger(number) || number < 0 || number > 0xffffffff) throw new RangeError(`number ${String(number)}`);
  return { profile: profileNumber(profile), number };
}

/** The number of the profile that the options of a call name, and the number and the offset of the message. */
function placeNumbers(options) {
  const { offset = 0, ...rest } = optionsOf(options, ["profile", "number", "offset"]);
  if (!Number.isSafeInteger(offset) || offset < 0) throw new RangeError(`offset ${String(offset)}`);
  return { ...writingNumbers(rest), offset: BigInt(offset) };
}

const ASCII = new TextDecoder("latin1"), UTF8 = new TextDecoder();

/** The calls that also write to their buffer where they refuse. */
const BUILDING = ["illcanon_build_as", "illcanon_build_with_defaults"], WRITING_REFUSED = ["illcanon_dump_as", ...BUILDING];

/** The calls. One made by `load` has a memory of its own. */
export class Illcanon {
  #module;
  #exports;
  /** The windows that were opened and not closed, from the one that was not used for the longest time. */
  #windows = new Set();

  constructor(module) {
    this.#module = module;
    this.#restart();
  }

  #restart() {
    this.#exports = new WebAssembly.Instance(this.#module, {}).exports;
  }

  /** The number of octets of memory that the module has. */
  get memorySize() {
    return this.#exports.memory.buffer.byteLength;
  }

  /** The normal form of the message that the octets are. */
  normalise(octets, options) {
    const view = messageOf(octets);
    return this.#written("illcanon_normalise_as", view, readingNumber(options), [], view.length + 4096);
  }

  /** Says whether the message is in normal form. */
  check(octets, options) {
    return this.#answered("illcanon_check_as", [messageOf(octets)], readingNumber(options));
  }

  /** Says whether two messages are the same, however each is spelled. */
  same(first, second, options) {
    return this.#answered("illcanon_same_as", [messageOf(first), messageOf(second)], readingNumber(options));
  }

  /** The message that the octets are as text, a line for each leaf. */
  show(octets, options) {
    const view = messageOf(octets), { profile, number } = writingNumbers(options);
    return ASCII.decode(this.#written("illcanon_show_as", view, profile, [number], 8 * view.length + 4096));
  }

  /** The message that the octets are as a line of JSON, as `illcanon show --json` writes it, with a line feed at its end. */
  json(octets, options) {
    const view = messageOf(octets), { profile, number, offset } = placeNumbers(options);
    return ASCII.decode(this.#written("illcanon_json_as", view, profile, [number, offset], 8 * view.length + 4096));
  }

  /** The message that the octets are as an object: the value of the line of JSON. A number past 53 bits is a BigInt. */
  parse(octets, options) {
    return readJson(this.json(octets, options));
  }

  /** The normal form of the message that a value of JSON says, or a line of it as text or octets. With `defaults` it has each default. */
  build(message, options) {
    const { profile, defaults } = buildingOf(options), line = jsonOctetsOf(message);
    try {
      return this.#written(BUILDING[Number(defaults)], line, profile, [], Math.min(line.length, LIMIT) + 4096);
    } finally {
      if (this.memorySize > MOST_KEPT) this.#restart();
    }
  }

  /** SHA-256 of the normal form of the message that the octets are: the same for all spellings. */
  digest(octets, options) {
    return this.#written("illcanon_digest_as", messageOf(octets), readingNumber(options), [], DIGEST_SIZE);
  }

  /** The message as it is spelled, a line for each element, and why it is refused, or null. */
  dump(octets, options) {
    const view = messageOf(octets), { profile, number } = writingNumbers(options);
    const made = this.#made("illcanon_dump_as", view, profile, [number], 16 * view.length + 4096);
    return { text: ASCII.decode(made.octets), refusal: made.refusal };
  }

  /** The messages that the octets are, one after another, each with its place, as it is spelled. Refused ones are passed over. */
  messages(octets, options) {
    return this.#messages(viewOf(octets), readingNumber(options));
  }

  *#messages(input, profile) {
    const window = { at: 0, count: 0, block: 0n, exports: null };
    try {
      for (let at = 0, number = 1; at < input.length; number++) {
        const found = this.#next(input, window, at, profile, number);
        this.#trim(window);
        yield found;
        at += found.octets.length;
        if (!found.isEndKnown) return;
      }
    } finally {
      this.#close(window);
    }
  }

  /** Runs `work`, which takes blocks by its argument. After a fault the memory may be half written, so the module begins anew. */
  #run(work) {
    const blocks = [];
    const take = (size) => {
      const block = this.#take(size);
      blocks.push(block);
      return block;
    };
    try {
      const result = work(take);
      for (const block of blocks) this.#exports.page_give(block);
      return result;
    } catch (error) {
      this.#restart();
      if (error instanceof WebAssembly.RuntimeError) throw new Stopped(error);
      throw error;
    }
  }

  #take(size) {
    const block = this.#exports.page_take(BigInt(size));
    if (block === 0n) throw new OutOfMemory();
    return block;
  }

  #view(at, size) {
    return new Uint8Array(this.#exports.memory.buffer, Number(at), size);
  }

  #put(take, octets) {
    const at = take(octets.length || 1);
    this.#view(at, octets.length).set(octets);
    return at;
  }

  #size(at) {
    return Number(new DataView(this.#exports.memory.buffer).getBigUint64(Number(at), true));
  }

  #refusal(at, number = 1) {
    const octets = this.#view(at, REFUSAL_SIZE), numbers = new DataView(octets.buffer, octets.byteOffset, PART_AT);
    const part = ASCII.decode(octets.subarray(PART_AT, octets.indexOf(0, PART_AT)));
    return new Refused(numbers.getUint32(0, true), CAUSES[numbers.getUint32(4, true) - 1], part || null, number);
  }

  /** The status that a call returned, where memory did not run out. */
  #call(name, ...words) {
    const status = this.#exports[name](...words);
    if (status === OUT_OF_MEMORY) throw new OutOfMemory();
    return status;
  }

  /** What a call writes into a buffer, which is made larger where it is too short; and the refusal. */
  #made(name, view, profile, words, room) {
    return this.#run((take) => {
      const input = this.#put(take, view), size = take(8), why = take(REFUSAL_SIZE);
      let buffer = take(room);
      const run = () => this.#call(name, profile, input, BigInt(view.length), ...words, buffer, BigInt(room), size, why);
      let status = run();
      if (status === NO_ROOM) {
        room = this.#size(size);
        buffer = take(room);
        status = run();
      }
      const octets = status === DONE || WRITING_REFUSED.includes(name) ? this.#view(buffer, this.#size(size)).slice() : null;
      if (status !== REFUSED) return { octets, refusal: null };
      return { octets, refusal: BUILDING.includes(name) ? this.#notBuilt(why, octets) : this.#refusal(why) };
    });
  }

  /** Why a line is not built: the cause whose number is at a place, and the octets of its pointer. */
  #notBuilt(at, pointer) {
    const number = new DataView(this.#exports.memory.buffer).getUint32(Number(at), true);
    return new NotBuilt(BUILD_CAUSES[number - 1], UTF8.decode(pointer));
  }

  /** What a call writes of octets that are not refused. */
  #written(...words) {
    const made = this.#made(...words);
    if (made.refusal) throw made.refusal;
    return made.octets;
  }

  /** What a call says of octets that are messages. */
  #answered(name, views, profile) {
    const answer = this.#run((take) => {
      const words = views.flatMap((view) => [this.#put(take, view), BigInt(view.length)]), flag = take(4), why = take(REFUSAL_SIZE);
      const status = this.#call(name, profile, ...words, flag, why);
      return status === DONE ? this.#view(flag, 1)[0] === 1 : this.#refusal(why, status === SECOND_REFUSED ? 2 : 1);
    });
    if (answer instanceof Refused) throw answer;
    return answer;
  }

  /** The message that begins at an offset of the input, or what is refused there. */
  #next(input, window, at, profile, number) {
    return this.#run((take) => {
      // A message has at most LIMIT octets, so none is cut short by a window of one octet more.
      const { place, count } = this.#open(input, window, at, LIMIT + 1);
      const read = take(8), size = take(8), why = take(REFUSAL_SIZE), buffer = take(LIMIT);
      const status = this.#call("illcanon_normalise_next_as", profile, place, BigInt(count), read, buffer, BigInt(LIMIT), size, why);
      if (status === DONE) {
        const octets = input.subarray(at, at + this.#size(read)), normal = this.#view(buffer, this.#size(size));
        const isNormal = areEqual(octets, normal);
        return { number, offset: at, octets, isNormal, normalSize: normal.length, refusal: null, isEndKnown: true };
      }
      const refusal = status === NEEDS_MORE ? new Refused(count, "Truncated", null, number) : this.#refusal(why, number);
      const end = this.#framed(input, window, at, size);
      const octets = input.subarray(at, end === null ? input.length : at + end);
      return { number, offset: at, octets, isNormal: false, normalSize: null, refusal, isEndKnown: end !== null };
    });
  }

  /** The number of octets of the element that begins there, by its identifiers and lengths alone; null where its end can't be known. */
  #framed(input, window, at, size) {
    for (let most = LIMIT + 1; ; most *= 4) {
      const { place, count } = this.#open(input, window, at, most);
      const status = this.#call("illcanon_frame", place, BigInt(count), size);
      if (status === DONE) return this.#size(size);
      if (status !== NEEDS_MORE || at + count === input.length) return null;
    }
  }

  /** Where the octets of the input from an offset on are in the module's memory, and how many: at least `most`, or all. */
  #open(input, window, at, most) {
    const count = Math.min(most, input.length - at);
    if (window.exports !== this.#exports || at < window.at || at + count > window.at + window.count) {
      this.#close(window);
      for (const other of this.#windows) if (this.#windows.size >= MOST_WINDOWS) this.#close(other);
      const octets = input.subarray(at, at + Math.max(count, WINDOW));
      const block = this.#take(octets.length);
      this.#view(block, octets.length).set(octets);
      Object.assign(window, { at, count: octets.length, block, exports: this.#exports });
    }
    this.#windows.delete(window);
    this.#windows.add(window);
    return { place: window.block + BigInt(at - window.at), count };
  }

  /** Gives a window back. */
  #close(window) {
    if (window.exports === this.#exports) this.#exports.page_give(window.block);
    window.exports = null;
    this.#windows.delete(window);
  }

  /** Gives the memory back that the end of a large element was looked for in. */
  #trim(window) {
    if (window.count <= WINDOW) return;
    this.#close(window);
    if (this.memorySize > MOST_KEPT) this.#restart();
  }
}

function areEqual(one, other) {
  if (one.length !== other.length) return false;
  for (let at = 0; at < one.length; at++) if (one[at] !== other[at]) return false;
  return true;
}
