/* Why a message is refused, in words. */

import { $, counted, grouped, make, shortened } from "./dom.js";

/** The most characters of what was found that are shown. */
const MOST_FOUND = 400;

/** Shows the refusal of what was found, by the lines of `dump` for it. `readInModule` is called if the other profile is asked for. */
export function showRefusal(found, lines, profile, readInModule) {
  const box = $("refused"), { refusal } = found;
  box.hidden = !refusal;
  box.replaceChildren();
  if (!refusal) return;
  const [, words = "", ...more] = lines || [];
  box.append(make("h3", "", `Refused at offset ${grouped(refusal.offset)}: ${refusal.cause}${refusal.part ? ` ${refusal.part}` : ""}`));
  if (words) box.append(make("p", "", sentence(words.trim())));
  for (const line of more) {
    if (/^ *(no ILL message begins|it looks like text)/.test(line)) box.append(make("p", "", sentence(line.trim())));
  }
  box.append(factsOf(more));
  box.append(...hintsOf(more, profile, readInModule));
  const left = found.octets.length - refusal.offset;
  if (!found.isEndKnown && refusal.cause !== "Truncated") {
    box.append(make("p", "", `Where this element ends can’t be known, so no message is looked for in the ${counted(left, "octet")} from there on.`));
  }
}

function sentence(text) {
  return `${text.charAt(0).toUpperCase()}${text.slice(1)}.`;
}

/** What `dump` says of the module profile, which is offered. */
function hintsOf(lines, profile, readInModule) {
  const hints = lines.map((line) => line.trim()).filter((line) => line.startsWith("--profile module "));
  return hints.map((line, at) => {
    const words = line.replace(/^--profile module/, "The module profile"), hint = make("div", "hint");
    hint.append(make("p", "", `${words}.`));
    if (at === 0 && profile === "2") hint.append(offer(readInModule));
    return hint;
  });
}

/** The clause, the path, what was found, and what was due. */
function factsOf(lines) {
  const pairs = make("dl"), due = make("dd", "chips"), names = { clause: "Clause", path: "Path", found: "Found" };
  for (const line of lines) {
    const [, key, value = ""] = /^ *(clause|path|found|due) (.*)$/.exec(line) || [], text = key === "path" ? value.split(".").join(" › ") : value;
    if (key === "due") due.append(make("span", "chip", value));
    else if (key) pairs.append(pair(names[key], make("dd", "", shortened(text, MOST_FOUND))));
  }
  if (due.childElementCount) pairs.append(pair("Due here", due));
  return pairs;
}

function pair(name, cell) {
  const made = make("div");
  made.append(make("dt", "", name), cell);
  return made;
}

function offer(readInModule) {
  const button = make("button", "", "Read in the module profile", { type: "button", id: "read-module" });
  button.addEventListener("click", readInModule);
  return button;
}
