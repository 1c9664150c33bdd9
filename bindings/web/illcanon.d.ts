/** The greatest number of octets of a message, and of its normal form. */
export const LIMIT: 1048576;

/** The greatest number of octets of a line of JSON that a message is built from. */
export const LINE_LIMIT: 16777216;

/** The causes, by their numbers from 1. */
export const CAUSES: readonly string[];

/** The causes for which no message is built, by their numbers from 1. */
export const BUILD_CAUSES: readonly string[];

/** Octets. No call changes them. */
export type Octets = ArrayBufferView | ArrayBuffer;

/** Profile 2, or the module profile, which has every row of the module of ISO 10161-1. */
export type Profile = "2" | "module";

/** How a message is read. The profile is "2" where none is given. An object with another name is a TypeError. */
export interface Reading {
  profile?: Profile;
}

/** How a message is written: also the number in its first line, which is 1 where none is given. */
export interface Writing extends Reading {
  number?: number;
}

/** How a message is written as a line of JSON: also its offset in the line, which is 0 where none is given. */
export interface Placing extends Writing {
  offset?: number;
}

/** How a message is built: also whether it has each default, and so is no normal form; it has none where that isn't said. */
export interface Building extends Reading {
  defaults?: boolean;
}

/** A value of JSON. Numbers are whole, and those past 53 bits are BigInt. */
export type Json = null | boolean | number | bigint | string | readonly Json[] | { readonly [name: string]: Json };

/** A message as docs/show.schema.json describes it. `profile` is there in the module profile. Its value may be changed, and built. */
export type Message = {
  number: number;
  offset: number;
  octets: number;
  apdu: string;
  profile?: "module";
  normal: boolean;
  value: { [name: string]: any };
};

/** Octets that are not exactly one message. */
export class Refused extends Error {
  /** The offset of what the refusal is about, in octets from the first one of the message. */
  readonly offset: number;
  /** A word such as "Missing"; docs/DEFINITIONS.md lists them. */
  readonly cause: string;
  /** The part that is missing or left out, such as "Expired.service-date-time", or null. */
  readonly part: string | null;
  /** The number of the message, from 1: of `same` and `messages`. */
  readonly number: number;
}

/** A line of JSON, or a value, that says no message. */
export class NotBuilt extends Error {
  /** A word such as "MissingMember". */
  readonly cause: string;
  /** The number of the cause, from 1. */
  readonly number: number;
  /** The place as a JSON pointer (RFC 6901), such as "/value/service-date-time"; empty for the line itself. */
  readonly pointer: string;
  /** The steps of the pointer: of each member its name, of each item of a list its number from 0. */
  readonly path: readonly (string | number)[];
}

/** Memory ran out. Nothing is known of the octets, and the next call begins with all the memory again. */
export class OutOfMemory extends Error {}

/** The module stopped, which its proof excludes. Nothing is known of the octets, and the next call begins anew. */
export class Stopped extends Error {}

/** A message as it is spelled. */
export interface Dump {
  /** A line of the message, and one for each element. Where a message is refused, the refusal in words follows the elements before the
   * place, and then come the other ones, by their identifiers and lengths alone, each marked as not judged. At most LIMIT octets are listed. */
  text: string;
  refusal: Refused | null;
}

/** A message of many, or a refused element among them. */
export interface Found {
  /** Its number, from 1. */
  number: number;
  /** The offset of its first octet in the input. */
  offset: number;
  /** The octets, in the memory of the input. */
  octets: Uint8Array;
  /** True if it is in normal form. */
  isNormal: boolean;
  /** The number of octets of its normal form; null where it is refused. */
  normalSize: number | null;
  /** Why it is refused, with an offset from its own first octet, or null. */
  refusal: Refused | null;
  /** False if it is refused and its end can't be known: it is then the last one, and its octets are all that are left. */
  isEndKnown: boolean;
}

/** The calls. Each may throw OutOfMemory and Stopped, a TypeError where its arguments are not what they are to be, and a RangeError where
 * a number isn't one of 32 bits, or of a value of JSON no safe integer. */
export class Illcanon {
  private constructor();
  /** The normal form of the message that the octets are. Throws Refused. */
  normalise(octets: Octets, options?: Reading): Uint8Array;
  /** Says whether the message is in normal form. Throws Refused. */
  check(octets: Octets, options?: Reading): boolean;
  /** Says whether two messages are the same, however each is spelled. Throws Refused, whose `number` is 1 or 2. */
  same(first: Octets, second: Octets, options?: Reading): boolean;
  /** The message that the octets are as text, a line for each leaf. Throws Refused. */
  show(octets: Octets, options?: Writing): string;
  /** The message that the octets are as a line of JSON, with a line feed at its end. Throws Refused. */
  json(octets: Octets, options?: Placing): string;
  /** The message that the octets are as an object. A number past 53 bits is a BigInt. Throws Refused. */
  parse(octets: Octets, options?: Placing): Message;
  /** The normal form of the message that a value says, as `parse` gives it, or a line of JSON as text or octets. Throws NotBuilt, and a
   * RangeError at a number that is no safe integer. With `defaults` each part that has its default is written, too: a message of the same APDU
   * that is no normal form, for systems that refuse messages without their defaults. */
  build(message: Message | Json | Octets, options?: Building): Uint8Array;
  /** SHA-256 of the normal form of the message that the octets are: the same for all spellings. Throws Refused. */
  digest(octets: Octets, options?: Reading): Uint8Array;
  /** The message as it is spelled, also where it is refused. */
  dump(octets: Octets, options?: Writing): Dump;
  /** The messages that the octets are, one after another. Refused ones are passed over by their identifiers and lengths. The octets are not
   * to change until the last one. */
  messages(octets: Octets, options?: Reading): Generator<Found, void, void>;
  /** The number of octets of memory that the calls hold. */
  readonly memorySize: number;
}

/** Compiles the module: that beside this file, or another, as octets, a URL, a Response or a WebAssembly.Module. */
export function load(source?: Octets | URL | string | Response | WebAssembly.Module): Promise<Illcanon>;
