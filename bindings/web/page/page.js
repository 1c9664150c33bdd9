/* The page: its inputs, and what is done with a message. The module and the examples are written before this file. */

import { load } from "../illcanon.js";
import { $, counted, make, say } from "./dom.js";
import { linked, linkTo } from "./links.js";
import { Message } from "./message.js";
import { MessageList } from "./message_list.js";
import { MessageView } from "./message_view.js";
import { shownName } from "./names.js";
import { fromBase64, kindOfFile, octetsOfText, toHex } from "./octet_text.js";

/** The most octets of a file. */
const MOST_READ = 268435456;

/** The most characters of a file of text, and the most messages: those that the program reads of an input. */
const MOST_TEXT = 67108864, MOST_MESSAGES = 1000000;

/** The milliseconds that reading takes before the page may draw, and before the list is drawn for a file more. */
const SLICE = 40, PAUSE = 500;

/** The octets that the name of an APDU is looked for in. */
const FRONT = 64;

const DECODER = new TextDecoder("latin1");

class Page {
  constructor(calls) {
    Object.assign(this, { calls, inputs: [], messages: [], current: -1, work: 0, clears: 0, drawn: 0, turn: Promise.resolve() });
    this.list = new MessageList($("list"), (at) => this.choose(at), (message) => this.nameOf(message));
    this.view = new MessageView(this);
  }

  get options() {
    return { profile: $("profile").value };
  }

  /** Does `work`, and says why it failed, if it did. After a fault the calls begin anew, so work goes on. */
  guarded(work) {
    try {
      work();
      showFault("");
      return true;
    } catch (error) {
      showFault(sentenceOf(error));
      return false;
    }
  }

  /** Does `work` once what began before it is done; nothing, where the page was cleared or reads all anew meanwhile. */
  #inTurn(work) {
    const mine = this.work, turn = this.turn.then(() => (mine === this.work ? work() : undefined));
    this.turn = turn.catch(() => {});
    return turn;
  }

  /** Reads an input, and shows its first message. */
  async read(octets, name) {
    const begin = this.messages.length, { work } = this;
    try {
      await this.take(octets, name);
    } finally {
      if (work === this.work) this.showFrom(begin);
    }
  }

  /** Reads an input, and shows none of its messages. */
  async take(octets, name) {
    if (!octets.length) throw new Error("there are no octets");
    const input = { octets, name };
    this.inputs.push(input);
    await this.#inTurn(() => this.#read(input));
  }

  async #read(input) {
    const begin = this.messages.length, mine = this.work;
    await this.#take(input);
    if (mine === this.work) say(`${counted(this.messages.length - begin, "message")} read of ${input.name}`);
  }

  /** Takes an input apart, some messages at a time, so that the page stays awake. Returns false where another reading began meanwhile. */
  async #take(input) {
    const mine = this.work;
    let until = performance.now() + SLICE, next = 0;
    for (const found of this.calls.messages(input.octets, this.options)) {
      if (this.messages.length === MOST_MESSAGES) throw new Error(`only the first ${counted(MOST_MESSAGES, "message")} are read`);
      this.messages.push(new Message(input, found));
      if (performance.now() <= until) continue;
      if (this.messages.length >= next) {
        this.#summarise(true);
        next = 1.5 * this.messages.length;
      }
      await new Promise((done) => setTimeout(done));
      if (mine !== this.work) return false;
      until = performance.now() + SLICE;
    }
    if (performance.now() > this.drawn + PAUSE) this.#summarise(true);
    return true;
  }

  #summarise(isReading) {
    this.drawn = performance.now();
    showWork();
    this.list.summarise(this.messages, this.inputs.map(({ name }) => name), isReading);
  }

  /** Shows the first of the messages that were read from this place on, if there is one. Keys go to it then. */
  showFrom(begin) {
    if (this.messages.length) this.#summarise(false);
    if (this.messages.length <= begin) return;
    drawer(false);
    this.choose(begin);
    $("main").focus({ preventScroll: true });
  }

  /** Shows a message, by its place. */
  choose(at) {
    const message = this.messages[at];
    if (!message) return;
    this.current = at;
    this.guarded(() => {
      this.list.mark(at);
      this.view.show(message);
    });
  }

  /** Reads all inputs again, in another profile. */
  async setProfile(profile) {
    const at = this.current, inputs = [...this.inputs];
    $("profile").value = profile;
    this.work++;
    this.messages = [];
    await this.#inTurn(() => this.#readAgain(inputs, at));
  }

  /** Reads inputs again, and shows the message that has this place. */
  async #readAgain(inputs, at) {
    for (const input of inputs) if (!(await this.#take(input))) return;
    if (!this.messages.length) return;
    this.#summarise(false);
    this.choose(Math.min(Math.max(0, at), this.messages.length - 1));
  }

  /** The name of a message's APDU, which `dump` writes on its second line, or in the path of a refusal. None is where no message begins. */
  nameOf(message) {
    if (!message.name) {
      const { text } = this.calls.dump(message.octets.subarray(0, FRONT), this.options);
      const isMessage = !text.includes("\n    no ILL message begins here\n");
      const found = isMessage && (/^.*\n +0 {2}[0-9a-f ]+ {2}([A-Za-z-]+)/.exec(text) || /^ +path (?!none$)([A-Za-z-]+)/m.exec(text));
      message.name = found ? found[1] : "Not a message";
    }
    return message.name;
  }

  clear() {
    this.work++;
    this.clears++;
    Object.assign(this, { inputs: [], messages: [], current: -1 });
    this.list.summarise([], [], false);
    this.view.clear();
    $("main").hidden = true;
    $("clear").hidden = true;
    document.body.classList.add("first");
    showFault("");
    drawer(true);
    $("text").value = "";
    $("text").focus();
  }

  /** The normal forms of all messages that are not refused. */
  normalForms() {
    return this.messages.filter((message) => !message.refusal).map((message) => this.calls.normalise(message.octets, this.options));
  }
}

function sentenceOf(error) {
  if (error.name === "OutOfMemory") return "The memory of the reader ran out, so this is not shown. It began anew, and reads other messages.";
  return `This can’t be shown: ${error.message}.`;
}

function showFault(text) {
  $("fault").textContent = text;
  $("fault").hidden = !text;
}

function showWork() {
  document.body.classList.remove("first");
  $("main").hidden = false;
  $("clear").hidden = false;
}

/** Opens or closes the place where text is pasted. */
function drawer(isOpen) {
  $("input").hidden = !isOpen;
  $("paste").setAttribute("aria-expanded", String(isOpen));
}

async function readFile(page, file) {
  if (file.size > MOST_READ) throw new Error("it has more than 256 MiB");
  const { clears } = page, name = shownName(file.name), octets = new Uint8Array(await file.arrayBuffer()), kind = kindOfFile(octets);
  if (clears !== page.clears) return;
  if (kind !== "octets" && octets.length > MOST_TEXT) throw new Error(`it is text of more than ${counted(MOST_TEXT, "character")}`);
  if (kind === "octets") await page.take(octets, name);
  else await page.take(octetsOfText(DECODER.decode(octets)), `${name} (${kind})`);
}

/** Reads files, and shows the first message of them once all are read. */
async function readFiles(page, files) {
  showFault("");
  const faults = [], begin = page.messages.length, { work } = page;
  for (const file of files) {
    try {
      if (file.size) await readFile(page, file);
      else faults.push(`${shownName(file.name)} is empty.`);
    } catch (error) {
      faults.push(`${shownName(file.name)} was not read to its end: ${error.message}.`);
    }
  }
  if (work === page.work) page.showFrom(begin);
  if (faults.length) showFault(faults.join(" "));
}

/** A name for an input that no other has. */
function freshName(page, name) {
  const names = new Set(page.inputs.map((input) => input.name));
  let fresh = name;
  for (let number = 2; names.has(fresh); number++) fresh = `${name} ${number}`;
  return fresh;
}

async function readText(page, text, name) {
  showFault("");
  try {
    await page.read(octetsOfText(text), freshName(page, name));
  } catch (error) {
    showFault(`The text was not read: ${error.message}.`);
  }
}

/** Says whether what is loaded may go for what a link carries: nothing is, or the one who reads says so. */
function mayReplace(page) {
  if (!page.inputs.length) return true;
  return confirm(`The link carries a message. Remove what the page shows, ${counted(page.messages.length, "message")}, and read it?`);
}

/** Reads what the address carries. */
async function readLink(page) {
  try {
    const found = linked();
    if (!found || !mayReplace(page)) return;
    page.clear();
    $("profile").value = found.profile;
    await page.read(found.octets, "the link");
  } catch (error) {
    showFault(`The link was not read: ${error.message}.`);
  }
}

/** Copies a text, and says so on the button. */
async function copy(text, button) {
  try {
    await navigator.clipboard.writeText(text);
  } catch {
    const area = make("textarea", "out");
    area.value = text;
    document.body.append(area);
    area.select();
    document.execCommand("copy");
    area.remove();
    button.focus();
  }
  const was = button.dataset.label || button.textContent;
  button.dataset.label = was;
  button.textContent = "Copied";
  say("Copied");
  setTimeout(() => { button.textContent = was; }, 1200);
}

function save(parts, name, type = "application/octet-stream") {
  const link = make("a");
  link.href = URL.createObjectURL(new Blob(parts, { type }));
  link.download = name;
  link.click();
  setTimeout(() => URL.revokeObjectURL(link.href), 10000);
}

/** The name of a file for what is made of a message. */
function stemOf({ file, number }) {
  return `${file.replace(/\.[^.]*$/, "").replace(/[^\w.-]+/g, "_") || "message"}-${number}`;
}

function listenToMessage(page) {
  const { view } = page;
  const on = (id, work) => $(id).addEventListener("click", (event) => page.guarded(() => work(event.currentTarget)));
  on("copy-octets", (button) => copy(toHex(view.message.octets), button));
  on("copy-normal", (button) => copy(toHex(view.normalForm()), button));
  on("copy-text", (button) => copy(view.text, button));
  on("copy-link", (button) => copy(linkTo(view.message.octets, page.options.profile), button));
  on("save-text", () => save([view.text], `${stemOf(view.message)}.txt`, "text/plain"));
  on("save-normal", () => save([view.normalForm()], `${stemOf(view.message)}.der`));
  on("save-made", () => save([view.fields.made], `${stemOf(view.message)}-changed.der`));
  on("save-all", () => save(page.normalForms(), "normal-forms.der"));
}

function listenToBar(page) {
  $("open").addEventListener("click", () => $("files").click());
  $("files").addEventListener("change", async (event) => {
    await readFiles(page, [...event.target.files]);
    event.target.value = "";
  });
  $("paste").addEventListener("click", () => {
    drawer($("input").hidden);
    if (!$("input").hidden) $("text").focus();
  });
  $("read").addEventListener("click", () => readText(page, $("text").value, "pasted"));
  $("text").addEventListener("keydown", (event) => {
    if (event.key === "Enter" && (event.ctrlKey || event.metaKey)) readText(page, $("text").value, "pasted");
  });
  $("clear").addEventListener("click", () => page.clear());
  $("profile").addEventListener("change", (event) => page.setProfile(event.target.value).catch((error) => showFault(sentenceOf(error))));
  $("theme").addEventListener("click", changeTheme);
}

function changeTheme() {
  const root = document.documentElement;
  const isDark = root.dataset.theme ? root.dataset.theme === "dark" : matchMedia("(prefers-color-scheme: dark)").matches;
  root.dataset.theme = isDark ? "light" : "dark";
  $("theme").setAttribute("aria-pressed", String(!isDark));
}

function offerExamples(page) {
  for (const { name, words, profile, octets } of EXAMPLES) {
    const card = make("button", "card", undefined, { type: "button" });
    card.append(make("b", "", name), make("span", "", words));
    card.addEventListener("click", async () => {
      $("profile").value = profile;
      await page.read(fromBase64(octets), name).catch((error) => showFault(sentenceOf(error)));
    });
    $("examples").append(card);
  }
}

function listenToDrops(page) {
  let depth = 0;
  const set = (value) => {
    depth = value;
    $("drop").hidden = depth <= 0;
  };
  addEventListener("dragenter", (event) => { event.preventDefault(); set(depth + 1); });
  addEventListener("dragleave", () => set(depth - 1));
  addEventListener("dragover", (event) => event.preventDefault());
  addEventListener("drop", async (event) => {
    event.preventDefault();
    set(0);
    await readTransfer(page, event.dataTransfer, "dropped text");
  });
  addEventListener("paste", async (event) => {
    if (event.target.closest && event.target.closest("textarea, input")) return;
    await readTransfer(page, event.clipboardData, "pasted");
  });
}

/** Reads what was dropped or pasted: files, or else text. */
async function readTransfer(page, transfer, name) {
  const files = [...transfer.files], text = transfer.getData("text");
  if (files.length) await readFiles(page, files);
  else if (text) await readText(page, text, name);
}

/** Draws the lists of the open view whole while they are printed. */
function listenToPrinting(page) {
  for (const [name, isPrinted] of [["beforeprint", true], ["afterprint", false]]) {
    addEventListener(name, () => page.view.printed().forEach((lines) => lines.print(isPrinted)));
  }
}

/** Starts the calls and the page. Returns null, and says so, in a browser that can't run them. */
async function begin() {
  let calls;
  try {
    calls = await load(fromBase64(MODULE));
  } catch (error) {
    showFault(`This browser can’t run the reader, which needs WebAssembly with 64-bit numbers: ${error.message}.`);
    for (const control of document.querySelectorAll("button, select, textarea")) control.disabled = true;
    $("examples").parentElement.hidden = true;
    return null;
  }
  const page = new Page(calls);
  for (const listen of [listenToMessage, listenToBar, offerExamples, listenToDrops, listenToPrinting]) listen(page);
  addEventListener("hashchange", () => readLink(page));
  await readLink(page);
  document.documentElement.dataset.ready = "yes";
  return page;
}

/* For tests, and for the browser's console. */
globalThis.illcanonPage = { page: null, ready: begin().then((page) => { globalThis.illcanonPage.page = page; }) };
