/* Octets as text: hexadecimal, hex dumps and base64. */

import { octetsOfDump } from "./hex_dump.js";
import { shownName } from "./names.js";

const HEX_DIGITS = Array.from({ length: 256 }, (_, octet) => octet.toString(16).padStart(2, "0"));

/** The fewest characters that a file of base64 has: shorter ones may be the beginning of a message. */
const LEAST_BASE64 = 16;

/** The octets in hexadecimal. */
export function toHex(octets, between = "") {
  const digits = new Array(octets.length);
  for (let at = 0; at < octets.length; at++) digits[at] = HEX_DIGITS[octets[at]];
  return digits.join(between);
}

/** The first line of an e-mail: a field of its head, or the line before it in a mailbox. */
const MAIL = /^(?:From |(?:Return-Path|Received|Delivered-To|From|To|Cc|Subject|Date|Message-ID|MIME-Version|Content-[A-Za-z-]+|X-[\w-]+):)/i;

/** The octets of a text: hexadecimal, a hex dump, or base64 where it has other characters than hexadecimal has. */
export function octetsOfText(text) {
  const plain = text.replace(/^-----.*$/gm, "").trim();
  if (!plain) throw new Error("there are no octets");
  if (MAIL.test(plain)) throw new Error("it is an e-mail: take the attachment out of it, or paste the base64 of it alone");
  const dumped = octetsOfDump(plain);
  if (dumped) return dumped;
  const digits = plain.replace(/\\x|0x/gi, " ").replace(/[\s,:;]+/g, "");
  if (/^[0-9a-f]*$/i.test(digits)) return fromHex(digits);
  if (/^[A-Za-z0-9+/_-]+={0,2}$/.test(plain.replace(/\s+/g, ""))) return fromBase64(plain);
  const at = digits.search(/[^0-9a-f]/i);
  throw new Error(`it is neither hexadecimal nor base64: “${shownName([...digits.slice(at)][0])}” comes after ${at} digits`);
}

function fromHex(digits) {
  if (digits.length % 2) throw new Error(`the hexadecimal digits are odd in number: ${digits.length}`);
  const octets = new Uint8Array(digits.length / 2);
  for (let at = 0; at < octets.length; at++) octets[at] = parseInt(digits.slice(2 * at, 2 * at + 2), 16);
  return octets;
}

/** The octets of base64, with the alphabet of RFC 4648, section 4 or 5, and with or without padding. */
export function fromBase64(text) {
  const plain = text.replace(/\s+/g, "").replace(/=+$/, "").replace(/-/g, "+").replace(/_/g, "/");
  if (plain.length % 4 === 1) throw new Error(`no base64 has ${plain.length} characters`);
  return Uint8Array.from(atob(plain), (character) => character.charCodeAt(0));
}

/** The octets in base64 with the alphabet of RFC 4648, section 5, without padding. */
export function toBase64(octets) {
  const characters = Array.from(octets, (octet) => String.fromCharCode(octet)).join("");
  return btoa(characters).replace(/\+/g, "-").replace(/\//g, "_").replace(/=+$/, "");
}

const isBlank = (octet) => octet === 32 || octet === 9 || octet === 10 || octet === 13;
const isDigit = (octet) => octet >= 48 && octet <= 57;
const isHexLetter = (octet) => (octet >= 65 && octet <= 70) || (octet >= 97 && octet <= 102);
const isLetter = (octet) => (octet >= 65 && octet <= 90) || (octet >= 97 && octet <= 122);
const isOther = (octet) => octet === 43 || octet === 45 || octet === 47 || octet === 61 || octet === 95;

/** The characters of a file that say whether it is a hex dump or an e-mail. */
const LOOKED_AT = 200;

/** What the front of a file says that it is: "hex dump", "e-mail", or null. */
function kindOfFront(octets) {
  const front = String.fromCharCode(...octets.subarray(0, LOOKED_AT)), [line] = front.split("\n");
  if (MAIL.test(front)) return "e-mail";
  return /^0{6,}(?:: | {1,2})[0-9a-f]{2}/i.test(line) ? "hex dump" : null;
}

/** What a file is: "octets", or a "hex dump", an "e-mail", or text in "hexadecimal" or "base64". No whole message is such a text: its version
 * begins with 80. */
export function kindOfFile(octets) {
  const kind = kindOfFront(octets);
  if (kind) return kind;
  let isHex = octets.length > 0, isBase64 = octets.length >= LEAST_BASE64;
  for (const octet of octets) {
    if (isBlank(octet) || isDigit(octet) || isHexLetter(octet)) continue;
    isHex = false;
    if (!isLetter(octet) && !isOther(octet)) isBase64 = false;
    if (!isBase64) return "octets";
  }
  if (isHex) return "hexadecimal";
  return isBase64 ? "base64" : "octets";
}
