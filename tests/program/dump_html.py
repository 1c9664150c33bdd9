#!/usr/bin/env python3
"""Compares `illcanon dump --html` with `illcanon dump`, over the test vectors, and over hostile texts and names of files.

The document is parsed by Python's html.parser. Its text is that of the lines of `dump`, character for character, but for the octets beside the
elements; these and the headers are the octets of the message, in order. It has the tags and attributes that are named here and no others, each is
closed where it has to be, and none comes from a message or a name. The class of each part follows from its words or octets. The head is that
which is written here, with a style of a known checksum: it was read, and hides nothing of a message. Needs the program built.
Usage: dump_html.py [SEED [COUNT [PROFILE]]], PROFILE being `2`, the default, or `module`. Prints the seed, with which a run is made again.
"""
import hashlib
import json
import random
import re
import subprocess
import sys
import tempfile
from collections import Counter
from html.parser import HTMLParser
from pathlib import Path

sys.path.insert(0, str(Path(__file__).resolve().parents[1]))

from model.encoder import Writer
from model.tables import PROGRAM, profile_and_words, seed_and_count

VECTORS = Path(__file__).resolve().parents[2] / "vectors"
# the tags in the body, with the attributes that each may have
TAGS = {
    "section": [{}],
    "h2": [{}],
    "details": [{"open": None}],
    "summary": [{"class": "row"}],
    "div": [{"class": name} for name in ("row", "refused", "rest")],
    "span": [{}, *({"class": name} for name in "at c0 c1 c2 c3 len name value note good warn bad".split())],
    "code": [{}],
    "b": [{}],
}
# the tags of the head, with their attributes
HEAD = [
    ("html", {"lang": "en"}),
    ("head", {}),
    ("meta", {"charset": "utf-8"}),
    ("meta", {"http-equiv": "Content-Security-Policy", "content": "default-src 'none'; style-src 'unsafe-inline'"}),
    ("meta", {"name": "viewport", "content": "width=device-width, initial-scale=1"}),
    ("meta", {"name": "color-scheme", "content": "light dark"}),
    ("title", {}),
    ("style", {}),
    ("body", {}),
]
# SHA-256 of the style. After a change of the style, see that each class can still be told from the others, and that nothing is hidden but by
# a reader who closes an element. Then put the checksum here that the failure prints.
STYLE = "7a0cec23226b1822bd920f01efa2bc99b467a919486dca87be50dc9d149e166e"
# the one rule with `display: none`: the browser's own mark before a line
HIDDEN = ["summary::-webkit-details-marker { display: none; }"]
# the classes of a message's words, by how they begin
HEADS = {"good": r"[A-Z][\w-]+, \d+ octets, normal\n", "warn": r"[A-Z][\w-]+, \d+ octets, not normal, normal form \d+ octets\n", "bad": r"refused\n"}
# what the parts of a line are, by their classes
PARTS = {
    "at": r" *\d+",
    "c0": r"[0-3][0-9a-f]( .*)?",
    "c1": r"[4-7][0-9a-f]( .*)?",
    "c2": r"[89ab][0-9a-f]( .*)?",
    "c3": r"[c-f][0-9a-f]( .*)?",
    "len": r"[0-9a-f]{2}( [0-9a-f]{2})*",
    "note": r"\(.*\)",
}
# what a hostile text is made of
PIECES = ["<script>alert(1)</script>", "</span></summary></details></section>", "<img src=x onerror=alert(1)>", "&lt;", "&amp;", "&#60;", "&", "<", ">", "\"", "'", "<!--", "-->", "]]>", "</style>", "<?php", "\\x3c", "  (note)", " = ", "\r\n", "\t", "\u2028", "é", "\x00", "\x1b[31m", "a"]


# how often each class was there
CLASSES = Counter()


def fail(*words):
    print("dump_html.py:", *words)
    sys.exit(1)


class Page(HTMLParser):
    """The parts of a document."""

    def __init__(self):
        super().__init__(convert_charrefs=True)
        # the open tags, each with its class; the text of the body; of each message the lines of its elements, and the octets beside each
        self.open, self.text, self.messages, self.head = [], [], [], []
        # the words of the title and the style, the parts of each class, and of each message its class in `h2`
        self.style, self.parts, self.heads = "", [], []

    def handle_starttag(self, tag, attrs):
        kind = dict(attrs).get("class")
        if not self.has("body"):
            self.head.append((tag, dict(attrs)))
            if tag != "meta":
                self.open.append((tag, kind))
            return
        if tag not in TAGS or dict(attrs) not in TAGS[tag]:
            fail("a tag that has no place:", tag, attrs)
        self.open.append((tag, kind))
        if tag == "section":
            self.messages.append(([], []))
        if tag == "span" and self.has("h2"):
            self.heads.append([kind, ""])
        elif tag == "span" and kind:
            self.parts.append([kind, ""])
        if kind == "row":
            self.messages[-1][0].append("")
            self.messages[-1][1].append("")

    def handle_endtag(self, tag):
        if not self.open or self.open.pop()[0] != tag:
            fail("a tag is closed where another is open:", tag)

    def handle_data(self, data):
        if not self.has("body"):
            if self.has("style"):
                self.style += data
            return
        if self.open[-1][0] == "span" and self.open[-1][1]:
            (self.heads if self.has("h2") else self.parts)[-1][1] += data
        if self.has("code"):
            self.messages[-1][1][-1] += data
            return
        if self.open[-1][0] == "body" and not data.strip():
            return
        self.text.append(data)
        if any(kind == "row" for _, kind in self.open):
            self.messages[-1][0][-1] += data

    def has(self, tag):
        return any(name == tag for name, _ in self.open)

    def handle_comment(self, data):
        fail("a comment:", data)

    def handle_pi(self, data):
        fail("an instruction:", data)

    def handle_decl(self, decl):
        if decl != "DOCTYPE html" or self.open:
            fail("a declaration:", decl)

    def unknown_decl(self, data):
        fail("a declaration:", data)


def parsed(document):
    page = Page()
    page.feed(document)
    page.close()
    if page.open:
        fail("tags are not closed:", page.open)
    if page.head != HEAD:
        fail("the head has other tags:", page.head)
    check_style(page.style)
    check_classes(page)
    return page


def check_style(style):
    """The style is the one that was read."""
    found = hashlib.sha256(style.encode()).hexdigest()
    if found != STYLE:
        fail("the style has another checksum:", found)
    hidden = [line for line in style.splitlines() if re.search(r"display: *none|visibility|opacity|url\(|@import|font-size: *0|text-indent", line)]
    if hidden != HIDDEN:
        fail("the style hides or loads something:", hidden)


def check_classes(page):
    """Each part has the class of its words or octets, and each message one class in its first line."""
    if len(page.heads) != len(page.messages):
        fail(len(page.messages), "messages, and", len(page.heads), "of them with a class")
    for kind, words in page.heads:
        if kind not in HEADS or not re.fullmatch(HEADS[kind], words):
            fail("a message of the class", kind, "has the words", repr(words))
        CLASSES[kind] += 1
    for kind, words in page.parts:
        if kind in PARTS and not re.fullmatch(PARTS[kind], words, re.S):
            fail("a part of the class", kind, "is", repr(words))
        CLASSES[kind] += 1


def octets_shown(rows, beside):
    """The octets of the headers and contents of a message, in order."""
    for line, content in zip(rows, beside):
        found = re.match(r" *\d+  (?:  )*((?:[0-9a-f]{2} )*[0-9a-f]{2})  ", line)
        if not found:
            fail("no such line of an element:", line)
        yield from bytes.fromhex(found[1])
        yield from bytes.fromhex(content)


def run(folder, words, names):
    done = subprocess.run([PROGRAM, "dump", *words, *names], cwd=folder, capture_output=True, check=False)
    return done.stdout.decode(), done.stderr, done.returncode


def compare(folder, words, names, whole):
    """The document and the lines of files. `whole` has of each message its octets, where all of them are shown."""
    lines, errors, status = run(folder, [*words, "-H"], names)
    document, html_errors, html_status = run(folder, [*words, "--html"], names)
    if (errors, status) != (html_errors, html_status):
        fail(words, names[:3], "the errors or the status differ:", status, html_status, errors[:200], html_errors[:200])
    page = parsed(document)
    text = "".join(page.text)
    if text != lines:
        place = next((i for i, (one, other) in enumerate(zip(text, lines)) if one != other), min(len(text), len(lines)))
        fail(words, "the text differs:", repr(text[max(0, place - 80) : place + 80]), "and not", repr(lines[max(0, place - 80) : place + 80]))
    if len(page.messages) != len(whole):
        fail(words, names[:3], len(page.messages), "messages and not", len(whole))
    for number, ((rows, beside), octets) in enumerate(zip(page.messages, whole)):
        if octets is not None and bytes(octets_shown(rows, beside)) != octets:
            fail(words, number, "the octets differ:", bytes(octets_shown(rows, beside)).hex(), "and not", octets.hex())
    return len(page.messages), len(text)


def vectors(profile):
    """The test vectors of a profile that are octets of at most 20,000 digits, each one message or refused."""
    for path in sorted(VECTORS.glob("*.json")):
        if path.name in ("schema.json", "streams.json"):
            continue
        made = json.loads(path.read_text())
        if made.get("profile", "2") != profile:
            continue
        for group in made["groups"]:
            for vector in group["vectors"]:
                if "octets" in vector and len(vector["octets"]) <= 20000:
                    yield bytes.fromhex(vector["octets"]), vector["result"] == "valid"


def hostile(chance, count):
    """Messages whose strings have markup, and octets that are none: an EXPIRED with two texts each, in one piece or in segments."""
    for _ in range(count):
        texts = []
        for _ in range(2):
            text = "".join(chance.choice(PIECES) for _ in range(chance.randint(0, 6))).encode("utf-8", "replace")
            texts.append(bytes(octet for octet in text if octet not in b"\x0e\x0f\x1b"))
        if chance.random() < 0.2:
            yield chance.randbytes(chance.randint(1, 60)), False
            continue
        strings = b"".join(tagged(0xA1 + i, tagged(0x1B, text)) for i, text in enumerate(texts))
        octets = tagged(0x74, tagged(0x30, b"\x80\x01\x02" + tagged(0xA1, strings) + bytes.fromhex("a20ca00a80083230323430323239")))
        if chance.random() < 0.3:
            # An extension, which profile 2 leaves out, with a hostile value.
            octets = tagged(0x74, tagged(0x30, octets[4:] + b"\xbf\x31" + tagged(0x30, tagged(0x1B, texts[0]))[0:]))
        yield octets, None


def tagged(tag, content):
    return bytes([tag]) + Writer().length(len(content)) + content


def main():
    seed, count = seed_and_count()
    profile, words = profile_and_words()
    chance = random.Random(seed)
    messages = characters = 0
    with tempfile.TemporaryDirectory() as place:
        folder = Path(place)
        batches = [[(f"v{i}", octets, good) for i, (octets, good) in enumerate(vectors(profile))]]
        names = ["<b>&'\".ber", "</title><script>x</script>.ber".replace("/", "\u2044"), "a\nb.ber", "x-->.ber", "&lt;.ber", "\u202e.ber"]
        batches.append([(names[i % len(names)].replace(".ber", f"{i}.ber"), octets, good) for i, (octets, good) in enumerate(hostile(chance, count))])
        for batch in batches:
            for name, octets, _ in batch:
                (folder / name).write_bytes(octets)
            for start in range(0, len(batch), 100):
                part = batch[start : start + 100]
                whole = [octets if good else None for _, octets, good in part]
                lines = run(folder, [*words, "--keep-going", "-H"], [name for name, _, _ in part])[0]
                if len(re.findall(r": message \d+: ", lines)) != len(whole):
                    whole = [None] * len(parsed(run(folder, [*words, "--keep-going", "--html"], [name for name, _, _ in part])[0]).messages)
                found = compare(folder, [*words, "--keep-going"], [name for name, _, _ in part], whole)
                messages, characters = messages + found[0], characters + found[1]
    missing = {*HEADS, *PARTS, "name", "value"} - set(CLASSES)
    if missing:
        fail("nothing has the classes", sorted(missing))
    print(f"seed {seed}, profile {profile}: {messages} messages, {characters} characters of text, all right")


if __name__ == "__main__":
    main()
