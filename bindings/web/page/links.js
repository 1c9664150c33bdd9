/* A link to the page that carries a message after its #. No browser sends that part. */

import { fromBase64, toBase64 } from "./octet_text.js";

/** The most octets that a link carries. */
export const MOST_LINKED = 4096;

/** The address of the page with these octets. */
export function linkTo(octets, profile) {
  const words = new URLSearchParams({ octets: toBase64(octets) });
  if (profile !== "2") words.set("profile", profile);
  return `${location.href.split("#")[0]}#${words}`;
}

/** What the address carries: octets and a profile; null if nothing. */
export function linked() {
  const words = new URLSearchParams(location.hash.slice(1)), text = words.get("octets");
  if (text === null) return null;
  const octets = fromBase64(text);
  if (octets.length > MOST_LINKED) throw new Error(`the link has more than ${MOST_LINKED} octets`);
  return { octets, profile: words.get("profile") === "module" ? "module" : "2" };
}
