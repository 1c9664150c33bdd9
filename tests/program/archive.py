#!/usr/bin/env python3
"""One command over a whole archive: 450 files with 200,000 messages, of which 50 are refused.

The messages are valid test vectors of vectors/worked.json or, in the module profile, of vectors/module_worked.json, in an order that the seed
says; what each command has to write is known from the vectors. `check`, `digest` and `canonicalise` go through all files in one process each: which messages are not
in normal form, which are refused and where, the digests and the copies, the normal forms of all good ones, and the numbers of --summary.
With valgrind, the instructions of each command over a smaller archive are compared with those of `canonicalise` on the same octets, and those of
`canonicalise` for usual elements with those for strings in segments, which have no path of their own.
Needs the program built.
Usage: archive.py [SEED [COUNT [PROFILE]]], COUNT being the messages, and PROFILE `2`, the default, or `module`. Prints the seed, with which a run
is made again.
"""
import hashlib
import json
import random
import shutil
import subprocess
import sys
import tempfile
from collections import Counter
from pathlib import Path

sys.path.insert(0, str(Path(__file__).resolve().parents[1]))

from model.encoder import Writer, spelled_usually
from model.tables import PROGRAM, ROOTS, TOP, profile_and_words, random_value

PROFILE, PROFILE_WORDS = profile_and_words()
WORKED = {"2": "worked", "module": "module_worked"}
FILES = 450
MESSAGES = int(sys.argv[2]) if len(sys.argv) > 2 else 200_000
BAD = 50
# [APPLICATION 20] with nothing in it: its end is known, and it is refused after its two octets
REFUSED = bytes.fromhex("7400")
CAUSE = "refused at 2 in message {}: Missing Expired.protocol-version-num"
# how many instructions each command may take for one of `canonicalise`
LIMITS = {"check": 2.0, "digest": 4.0, "canonicalise": 1.5}
# how many instructions messages of usual elements may take for one of those with their strings in segments
USUAL_LIMIT = 0.75


def expect(condition, *what):
    if not condition:
        print("archive.py:", *what)
        sys.exit(1)


def known_messages():
    """Messages with their normal forms and the names of their APDUs."""
    found = []
    for group in json.loads((TOP / f"vectors/{WORKED[PROFILE]}.json").read_text())["groups"]:
        for vector in group["vectors"]:
            if vector["result"] == "valid" and "octets" in vector and len(vector["octets"]) < 2000:
                found.append((bytes.fromhex(vector["octets"]), bytes.fromhex(vector["normal"]), vector["apdu"]))
    expect(len(found) > 20, "the vectors have only", len(found), "short messages")
    return found


def instructions(folder, words):
    """How many instructions a command takes in the folder."""
    counted = ["valgrind", "--tool=callgrind", "--callgrind-out-file=/dev/null", PROGRAM, words[0], *PROFILE_WORDS, *words[1:]]
    done = subprocess.run(counted, cwd=folder, capture_output=True, check=False)
    found = [line for line in done.stderr.decode().splitlines() if "refs:" in line]
    expect(found, words, "isn't counted by valgrind")
    return int(found[0].split()[-1].replace(",", ""))


class Archive:
    """Files with messages, and what is to be said of them."""

    def __init__(self, folder, chance, files, messages, bad):
        known = known_messages()
        places = set(chance.sample(range(messages), bad))
        self.names, self.lines, self.refusals, self.digests, self.forms = [], [], [], [], []
        self.counts = Counter(files=files, messages=messages, refused=bad)
        for file in range(files):
            name = f"{file:03}.ber"
            self.names.append(name)
            octets = []
            for number, place in enumerate(range(messages * file // files, messages * (file + 1) // files), 1):
                octets.append(self.refused(name, number) if place in places else self.good(name, number, *chance.choice(known)))
            (folder / name).write_bytes(b"".join(octets))
        self.folder = folder

    def refused(self, name, number):
        self.refusals.append(f"illcanon: {name}: {CAUSE.format(number)}")
        self.counts["octets"] += len(REFUSED)
        return REFUSED

    def good(self, name, number, octets, normal, apdu):
        is_normal = octets == normal
        end = "normal" if is_normal else f"not normal, normal form {len(normal)} octets"
        self.lines.append(f"{name}: message {number}: {apdu}, {len(octets)} octets, {end}")
        self.digests.append(f"{hashlib.sha256(normal).hexdigest()}  {name}:{number}")
        self.forms.append(normal)
        self.counts["normal" if is_normal else "not normal"] += 1
        self.counts["octets"] += len(octets)
        return octets

    def summary(self):
        parts = ("files", "messages", "normal", "not normal", "refused", "octets")
        said = {"refused": f" (0 not read, {self.counts['refused']} invalid)"}
        return "illcanon: " + ", ".join(f"{self.counts[part]} {part}{said.get(part, '')}" for part in parts)

    def run(self, *words):
        done = subprocess.run([PROGRAM, words[0], *PROFILE_WORDS, *words[1:], *self.names], cwd=self.folder, capture_output=True, check=False)
        expect(done.returncode == 1, words, "status", done.returncode)
        errors = done.stderr.decode().splitlines()
        expect(errors == [*self.refusals, self.summary()], words, "standard error", errors[-3:])
        return done.stdout


def check_results(archive):
    expect(archive.run("check", "--keep-going", "--summary").decode().splitlines() == archive.lines, "check: the lines differ")
    digests = archive.run("digest", "--keep-going", "--summary").decode().splitlines()
    expect(digests == archive.digests, "digest: the lines differ")
    copies = Counter(line[:64] for line in digests)
    expect(copies == Counter(hashlib.sha256(form).hexdigest() for form in archive.forms), "digest: the copies differ")
    archive.run("canonicalise", "--keep-going", "--summary", "-o", "OUT")
    expect((archive.folder / "OUT").read_bytes() == b"".join(archive.forms), "canonicalise: the normal forms differ")
    return copies


def check_instructions(folder, chance):
    """How many times the instructions of `canonicalise` each command takes, start-up left out, with as many messages in a file."""
    archive = Archive(folder, chance, 20, MESSAGES * 20 // FILES, 0)
    half, whole = archive.names[:10], archive.names

    def cost(*words):
        return instructions(folder, [*words, *whole]) - instructions(folder, [*words, *half])

    for file, names in ("half", half), ("whole", whole):
        (folder / file).write_bytes(b"".join((folder / name).read_bytes() for name in names))
    plain = instructions(folder, ["canonicalise", "whole", "/dev/null"]) - instructions(folder, ["canonicalise", "half", "/dev/null"])
    for words in (["check", "--keep-going"], ["digest", "--keep-going"], ["canonicalise", "--keep-going", "-o", "/dev/null"]):
        ratio = cost(*words) / plain
        print(f"{' '.join(words)}: {ratio:.2f} times the instructions of canonicalise")
        expect(ratio <= LIMITS[words[0]], words, "takes more than", LIMITS[words[0]], "times")


class InSegments(Writer):
    """The normal form, but for each string, which is in one segment."""

    def text(self, tag, octets):
        return self.element(tag, True, self.element(("universal", 4), False, octets))


def check_usual(folder, chance):
    """The instructions of `canonicalise` for messages of usual elements, beside those for the same APDUs with strings in segments."""
    root = ROOTS[PROFILE]
    apdus = [spelled_usually(chance, root, random_value)[0] for _ in range(1000)]
    costs = []
    for writer in Writer(), InSegments():
        messages = [writer.value(root, apdu, None) for apdu in apdus]
        for file, count in ("half", 500), ("whole", 1000):
            (folder / file).write_bytes(b"".join(messages[:count]))
        whole, half = (instructions(folder, ["canonicalise", file, "/dev/null"]) for file in ("whole", "half"))
        costs.append(whole - half)
    ratio = costs[0] / costs[1]
    print(f"usual elements: {ratio:.2f} times the instructions of strings in segments")
    expect(ratio <= USUAL_LIMIT, "usual elements take more than", USUAL_LIMIT, "times")


def main():
    seed = int(sys.argv[1]) if len(sys.argv) > 1 else random.randrange(1_000_000)
    print(f"seed {seed}, profile {PROFILE}")
    with tempfile.TemporaryDirectory() as name:
        archive = Archive(Path(name), random.Random(seed), FILES, MESSAGES, BAD)
        copies = check_results(archive)
        print(f"{archive.summary().removeprefix('illcanon: ')}; {len(copies)} digests: as known")
    if MESSAGES < 200_000:
        print("archive.py: too few messages a file to compare instructions")
    elif shutil.which("valgrind"):
        with tempfile.TemporaryDirectory() as name:
            check_instructions(Path(name), random.Random(seed))
            check_usual(Path(name), random.Random(seed))
    else:
        print("archive.py: no valgrind, so no instructions are compared")


if __name__ == "__main__":
    main()
