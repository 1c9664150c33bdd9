#!/usr/bin/env python3
"""The results of an archive as lines of JSON, the tables that GUIDE.md makes of them, and the file of refused messages.

The archive has valid test vectors, and refused ones of vectors/causes.json whose ends are known, in an order that the seed says. Some of its
files have names that look like options or formulas. What `check --json` and
`digest --json` have to write is known from the vectors and the model, and each line is as docs/results.schema.json says. The commands of GUIDE.md
(with jq and sqlite3, where they are installed) have to count the same. The messages in the file of `--refused` are refused again for the same
causes. With `--max-refused` the work ends with the message of this number. One process has to write what one for each file writes with `-H`. Files that can't be opened have their reasons, and are counted.
Needs the program built.
Usage: results.py [SEED [COUNT [PROFILE]]], COUNT being the messages, and PROFILE `2`, the default, or `module`. Prints the seed, with which a run
is made again.
"""
import csv
import hashlib
import io
import json
import os
import random
import re
import shutil
import subprocess
import sys
import tempfile
from collections import Counter
from pathlib import Path

sys.path.insert(0, str(Path(__file__).resolve().parents[1]))

from dump import CLAUSES, Dumper, apdu_begun
from model.judge import Judge, Refused
from model.schema import Schema
from model.tables import PROGRAM, TOP, profile_and_words

PROFILE, PROFILE_WORDS = profile_and_words()
FILES = 45
MESSAGES = int(sys.argv[2]) if len(sys.argv) > 2 else 20_000
# causes that say that a limit of the program is passed, or a part left out
LIMITS = {"TooLong", "TooDeep", "LeftOut", "IntegerTooLong", "NormalTooLong"}
NOBODY = 65534
# Names like options and a formula. With the others they are in the order in which the shell expands `*`.
NAMES_OF_FILES = sorted(["--files-from=l.ber", "--nope.ber", "=1+1.ber", *(f"{file:03}.ber" for file in range(FILES - 3))])


def expect(condition, *what):
    if not condition:
        print("results.py:", *what)
        sys.exit(1)


def size_of(octets, at=0):
    """Where the element at a place ends, by identifiers and lengths alone; None where that isn't known."""
    first = octets[at : at + 1]
    at += 1
    if first and first[0] & 0x1F == 0x1F:
        if octets[at : at + 1] < b"\x01" or octets[at] == 0x80:
            return None
        while at < len(octets) and octets[at] & 0x80:
            at += 1
        at += 1
    if at >= len(octets) or first == b"\0":
        return None
    length = octets[at]
    at += 1
    if length == 0x80:
        if not first[0] & 0x20:
            return None
        while octets[at : at + 2] != b"\0\0":
            at = size_of(octets, at)
            if at is None:
                return None
        return at + 2
    if length > 0x80:
        count = length - 0x80
        if length == 0xFF or at + count > len(octets):
            return None
        length = int.from_bytes(octets[at : at + count], "big")
        at += count
    return at + length if at + length <= len(octets) else None


def vectors(path):
    for group in json.loads((TOP / "vectors" / path).read_text())["groups"]:
        for vector in group["vectors"]:
            if "octets" in vector and len(vector["octets"]) < 2000:
                yield vector


def good_messages():
    found = []
    for vector in vectors("worked.json" if PROFILE == "2" else "module_worked.json"):
        if vector["result"] == "valid":
            octets, normal = bytes.fromhex(vector["octets"]), bytes.fromhex(vector["normal"])
            said = {"apdu": vector["apdu"], "normal": octets == normal}
            found.append((octets, said, hashlib.sha256(normal).hexdigest()))
    return found


def is_read_past(octets, at):
    """Whether the module profile accepts the octets, or refuses them after the offset."""
    try:
        Judge(octets, "module").message()
    except Refused as fault:
        return fault.at > at
    return True


def place_of(octets):
    """The place where the octets are refused, in words."""
    dumper = Dumper(octets, PROFILE)
    try:
        dumper.message()
    except Refused as fault:
        return dumper.place(fault)
    return {}


def refused_messages():
    found = []
    for vector in vectors("causes.json"):
        octets = bytes.fromhex(vector["octets"])
        if vector["result"] != "refused" or not octets or size_of(octets) != len(octets) or PROFILE not in vector.get("profiles", ["2"]):
            continue
        cause, at = vector["cause"], vector["offset"]
        not_read = cause in LIMITS or (PROFILE == "2" and is_read_past(octets, at))
        apdu = apdu_begun(octets)
        kind = "no message" if apdu is None else "not read" if not_read else "invalid"
        refused = {"cause": cause, "offset": at, "kind": kind, "clause": CLAUSES[cause]}
        if "part" in vector:
            refused["part"] = vector["part"]
        refused.update(place_of(octets))
        found.append((octets, {**({"apdu": apdu} if apdu else {}), "refused": refused}, None))
    return [entry for entry in found if entry[1]["refused"]["cause"] != "TrailingBytes"]


class Archive:
    """Files with messages, and the lines that are to be written of them."""

    def __init__(self, folder, chance):
        good, bad = good_messages(), refused_messages()
        expect(len(good) > 20 and len(bad) > 5, "the vectors have only", len(good), "valid and", len(bad), "refused messages")
        self.folder, self.names, self.checked, self.digested, self.refused = folder, [], [], [], []
        for file in range(FILES):
            name = f"./{NAMES_OF_FILES[file]}"
            self.names.append(name)
            offset, octets = 0, []
            for number in range(1, MESSAGES // FILES + 1):
                message, said, digest = chance.choice(bad if chance.random() < 0.02 else good)
                line = {"file": name, "number": number, "offset": offset, "octets": len(message), **said}
                self.checked.append(line)
                self.digested.append({**line, "digest": digest} if digest else line)
                if not digest:
                    self.refused.append((message, said["refused"]))
                octets.append(message)
                offset += len(message)
            (folder / name).write_bytes(b"".join(octets))

    def summary(self):
        kinds = Counter(refused["kind"] for _, refused in self.refused)
        normal = sum(line.get("normal", False) for line in self.checked)
        refused = len(self.refused) - kinds["no message"]
        return {"summary": {
            "files": FILES, "messages": len(self.checked) - kinds["no message"], "normal": normal, "not_normal": len(self.checked) - len(self.refused) - normal, "refused": refused,
            "not_read": kinds["not read"], "invalid": kinds["invalid"], "no_message": kinds["no message"], "octets": sum(line["octets"] for line in self.checked), "not_opened": 0, "left": 0,
        }}

    def run(self, *words, status=1, **how):
        done = subprocess.run([PROGRAM, words[0], *PROFILE_WORDS, *words[1:]], cwd=self.folder, capture_output=True, check=False, **how)
        expect(done.returncode == status, words, "status", done.returncode, done.stderr[-300:])
        return done.stdout.decode(), done.stderr.decode()


def check_lines(archive):
    schema = Schema(json.loads((TOP / "docs/results.schema.json").read_text()))
    for command, wanted in ("check", archive.checked), ("digest", archive.digested):
        output, errors = archive.run(command, "--json", "--keep-going", "--summary", *archive.names)
        lines = output.splitlines()
        expect(not errors, command, errors[:300])
        for line, want in zip(lines, [*wanted, archive.summary()]):
            expect(line == json.dumps(want, separators=(",", ":")), f"{command}:\n  {line}\nand not\n  {json.dumps(want)}")
            fault = schema.fault(json.loads(line))
            expect(fault is None, fault, line)
        expect(len(lines) == len(wanted) + 1, command, len(lines), "lines")


def commands_of_guide():
    """The commands that GUIDE.md makes tables by, which have `./*.ber` for the files."""
    blocks = re.findall(r"```sh no-run\n(.*?)```", (TOP / "docs/GUIDE.md").read_text(), re.S)
    found = [block.splitlines() for block in blocks if "@csv" in block]
    expect(len(found) == 1, "GUIDE.md has", len(found), "blocks with @csv")
    return found[0]


def in_list(name):
    """The cell of a file that a list names without its folder."""
    name = name.removeprefix("./")
    return f"'{name}" if name[0] in "=+-@" else name


def check_tables(archive):
    if not shutil.which("jq") or not shutil.which("sqlite3"):
        print("results.py: no jq or sqlite3, so no tables are made")
        return
    words = " ".join(PROFILE_WORDS)
    program = archive.folder / "bin/illcanon"
    program.parent.mkdir()
    program.write_text(f'#!/bin/sh\ncommand=$1\nshift\nexec {PROGRAM} "$command" {words} "$@"\n')
    program.chmod(0o755)
    path = f"{program.parent}:{os.environ['PATH']}"

    def shell(command):
        done = subprocess.run(["bash", "-c", command], cwd=archive.folder, env={**os.environ, "PATH": path, "LC_ALL": "C"}, capture_output=True, text=True, check=False)
        expect(done.returncode == 0 and not done.stderr, command, done.stderr[:300])
        return done.stdout

    causes, apdus, table, load = commands_of_guide()
    by_cause = Counter(line.get("refused", {}).get("cause", "good") for line in archive.checked)
    by_apdu = Counter(line.get("apdu", "none") for line in archive.checked)
    for command, wanted in (causes, by_cause), (apdus, by_apdu):
        found = {name: int(count) for count, name in (line.split() for line in shell(command).splitlines())}
        expect(found == wanted, command, found, wanted)
    expect("./*.ber" in table, "no ./*.ber in", table)
    (archive.folder / "list").write_bytes(b"".join(name[2:].encode() + b"\0" for name in archive.names))
    # Names of a list may begin like formulas. Those that do have a mark before them.
    for command, cell in (table.replace("./*.ber", "--files-from list"), in_list), (table, str):
        shell(command)
        rows = list(csv.reader(io.StringIO((archive.folder / "all.csv").read_text())))
        wanted = [
            [cell(line["file"]), str(line["number"]), str(line["offset"]), line.get("apdu", ""), line.get("digest", ""), line.get("refused", {}).get("cause", "")]
            for line in archive.digested
        ]
        expect(rows == wanted, "the CSV differs", command)
        expect(not any(text[:1] in tuple("=+-@") for row in rows for text in row), "a cell is a formula", command)
    shell(load)
    found = shell("sqlite3 all.db \"select cause, count(*) from message where cause <> '' group by cause\"").splitlines()
    expect(dict(line.split("|") for line in found) == {name: str(count) for name, count in by_cause.items() if name != "good"}, "sqlite:", found)


def check_refused(archive):
    """The refused messages are in their file, and refused again for the same causes."""
    archive.run("canonicalise", "--keep-going", "--refused", "refused", "-o", "OUT", *archive.names)
    octets = (archive.folder / "refused").read_bytes()
    kept = [(message, refused) for message, refused in archive.refused if refused["kind"] != "no message"]
    expect(octets == b"".join(message for message, _ in kept), "--refused: the octets differ")
    output, _ = archive.run("check", "--json", "--keep-going", "refused")
    found = [json.loads(line)["refused"] for line in output.splitlines()]
    expect(found == [refused for _, refused in kept], "--refused: the causes differ")


def check_limit(archive, chance):
    """The work ends with a refused message of a random number, of all files, and the lines before it are written."""
    places = [place for place, line in enumerate(archive.checked) if "refused" in line]
    number = chance.randrange(1, len(places) + 1)
    wanted = archive.checked[: places[number - 1] + 1]
    for command, known in ("check", archive.checked), ("digest", archive.digested):
        output, errors = archive.run(command, "--json", "--keep-going", "--max-refused", str(number), "--refused", "refused", *archive.names)
        expect(output.splitlines() == [json.dumps(line, separators=(",", ":")) for line in known[: len(wanted)]], command, "--max-refused", number, "has other lines")
        expect(errors == f"illcanon: {wanted[-1]['file']}: stopped after {number} refused message{'s' if number > 1 else ''}\n", errors)
        octets = b"".join(message for message, refused in archive.refused[:number] if refused["kind"] != "no message")
        expect((archive.folder / "refused").read_bytes() == octets, command, "--max-refused", number, "keeps other octets")
    output, errors = archive.run("check", "--json", "--keep-going", "--max-refused", str(len(places) + 1), *archive.names)
    expect(len(output.splitlines()) == len(archive.checked) and not errors, "--max-refused of one more than there are:", errors[:300])


def check_one_by_one(archive):
    """One process writes what one for each file writes."""
    for words in ["check"], ["check", "--json"], ["digest"], ["show"], ["show", "--json"]:
        whole = archive.run(words[0], "-H", "--keep-going", *words[1:], *archive.names)
        each = subprocess.run(
            ["xargs", "-0", "-n", "1", PROGRAM, words[0], *PROFILE_WORDS, "-H", "--keep-going", *words[1:]],
            input="\0".join(archive.names).encode(), cwd=archive.folder, capture_output=True, check=False,
        )
        expect((each.stdout.decode(), each.stderr.decode()) == whole, words, "xargs -n1 differs")


def check_reasons(archive):
    """A file that is absent, a folder and one that may not be read have three reasons, and three are counted."""
    archive.folder.chmod(0o755)
    (archive.folder / "folder").mkdir()
    denied = archive.folder / "denied"
    denied.write_bytes(b"")
    denied.chmod(0)
    program = shutil.copy(PROGRAM, archive.folder / "program")
    how = {"user": NOBODY, "group": NOBODY, "extra_groups": []} if os.geteuid() == 0 else {}
    names = ["absent", "folder", "denied", archive.names[0]]
    reasons = "illcanon: cannot open absent: no such file\nillcanon: cannot open folder: is a directory\nillcanon: cannot open denied: permission denied\n"
    lines = [line for line in archive.checked if line["file"] == archive.names[0]]
    count = sum("refused" not in line or line["refused"]["kind"] != "no message" for line in lines)
    for flag in [], ["--json"]:
        words = [program, "check", *PROFILE_WORDS, "--keep-going", "--summary", *flag, *names]
        done = subprocess.run(words, cwd=archive.folder, capture_output=True, text=True, check=False, **how)
        errors = [line for line in done.stderr.splitlines(keepends=True) if "refused at" not in line]
        if flag:
            summary = json.loads(done.stdout.splitlines()[-1])["summary"]
            found = summary["files"], summary["messages"], summary["not_opened"]
        else:
            line = errors.pop()
            found = tuple(int(re.search(rf"(\d+) {word}", line)[1]) for word in ("file", "message", "not opened"))
        expect(done.returncode == 3 and found == (1, count, 3), words, done.returncode, found)
        expect("".join(errors) == reasons, words, errors)


def main():
    seed = int(sys.argv[1]) if len(sys.argv) > 1 else random.randrange(1_000_000)
    print(f"seed {seed}, profile {PROFILE}")
    with tempfile.TemporaryDirectory() as name:
        chance = random.Random(seed)
        archive = Archive(Path(name), chance)
        check_lines(archive)
        check_tables(archive)
        check_refused(archive)
        check_limit(archive, chance)
        check_one_by_one(archive)
        check_reasons(archive)
        print(f"{len(archive.checked)} messages, {len(archive.refused)} of them refused: as known")


if __name__ == "__main__":
    main()
