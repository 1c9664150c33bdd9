#!/usr/bin/env python3
"""Refuses allocation number 1, 2, .. of memory in the program over several files, until a run meets no refusal.

A run in which an allocation was refused does what it does without, or ends with status 3 and a line that says which file ran out of memory.
Of every other file nothing is lost, and nothing is said of the wrong file or message: the lines of output are lines of the run without a
refusal, in their order. Needs the program built, and `cc`.
"""
import os
import re
import shutil
import subprocess
import sys
import tempfile
from pathlib import Path

sys.path.insert(0, str(Path(__file__).resolve().parents[1]))

from model.tables import PROGRAM, TOP

# an EXPIRED in normal form, the same with a long length, and a message that is refused after its two octets
EXPIRED = bytes.fromhex("741f301d800102a10aa1031b0147a2031b0151a20ca00a80083230323430323239")
LONG = bytes.fromhex("74811f301d800102a10aa1031b0147a2031b0151a20ca00a80083230323430323239")
REFUSED = bytes.fromhex("7400")
FILES = {"A": EXPIRED, "B": LONG + REFUSED + EXPIRED, "C": EXPIRED + LONG}
LINES = b"".join(octets.hex().encode() + b"\n" for octets in (EXPIRED, REFUSED, LONG))
# a line that says this EXPIRED, one that is refused, and again the first
LINE = b"""{"apdu":"Expired","value":{"protocol-version-num":2,"transaction-id":{"transaction-group-qualifier":{"general":"G"},\
"transaction-qualifier":{"general":"Q"}},"service-date-time":{"date-time-of-this-service":{"date":"20240229"}}}}
"""
JSON = LINE + b"{}\n" + LINE
# the words of each command, and whether its lines of output name their files
COMMANDS = [
    ("check --keep-going --summary A B C", True),
    ("check --files-from list", True),
    ("check --json --keep-going A B C", True),
    ("show --json --keep-going A B C", True),
    ("digest --keep-going A B C", True),
    ("dump A C", True),
    ("canonicalise --keep-going -o OUT A B C", False),
    ("canonicalise --lines lines -", False),
    ("build --keep-going -o OUT json json", False),
    ("build --lines json -", False),
]
BEFORE = b"what was there before"
# what --summary says of a file that was left before its end
LEFT = re.compile(r"illcanon: (\w+): stopped at message \d+ \(octet \d+\)")


def fail(*what):
    print("files_allocations.py:", *what)
    sys.exit(1)


class Run:
    """What the program leaves, with an allocation refused or with none."""

    def __init__(self, words, folder, library, number):
        (folder / "OUT").write_bytes(BEFORE)
        more = {"REFUSE": str(number), "LD_PRELOAD": str(library)}
        done = subprocess.run([PROGRAM, *words.split()], cwd=folder, env={**os.environ, **more}, capture_output=True, check=False)
        errors = done.stderr.decode().splitlines()
        self.refused = "refused" in errors
        self.status = done.returncode
        self.output = done.stdout
        self.errors = [line for line in errors if line != "refused"]
        self.out = (folder / "OUT").read_bytes()

    def seen(self):
        return self.status, self.output, self.errors, self.out


def is_part_of(some, every):
    """Whether these are some of those, in their order."""
    left = iter(every)
    return all(one in left for one in some)


def of_file(name, lines):
    """The lines that are of the file of this name."""
    return [line for line in lines if re.search(rb'^%b: |  %b:\d+$|"file":"%b"' % ((name.encode(),) * 3), line)]


def check(words, names_files, whole, run, number):
    """Judges a run that doesn't do what it does without a refusal."""
    faults = [re.fullmatch(r"(?:error|illcanon|illcanon: (\w+)): out of memory", line) for line in run.errors]
    without = {fault[1] for fault in faults if fault}
    if run.status != 3 or not without:
        fail(words, "with allocation", number, "refused: status", run.status, run.errors)
    lines, every = run.output.splitlines(), whole.output.splitlines()
    if not is_part_of(lines, every):
        fail(words, "with allocation", number, "refused: other output")
    left = [line for line in run.errors if (place := LEFT.fullmatch(line)) and place[1] in without]
    others = [line for line, fault in zip(run.errors, faults) if not fault and "files, " not in line and line not in left]
    if not is_part_of(others, whole.errors):
        fail(words, "with allocation", number, "refused: other faults", others)
    if not names_files or None in without:
        return
    for name in set(FILES) - without:
        if of_file(name, lines) != of_file(name, every):
            fail(words, "with allocation", number, "refused: lines of", name, "are lost")


def check_out(words, whole, run, number):
    """OUT is as it was, or has the normal forms of some of the messages, in their order; all are the same here."""
    if run.out == BEFORE or "OUT" not in words:
        return
    if run.out != EXPIRED * (len(run.out) // len(EXPIRED)) or len(run.out) > len(whole.out):
        fail(words, "with allocation", number, "refused: OUT has other octets")


def main():
    folder = Path(tempfile.mkdtemp())
    try:
        library = folder / "refuse.so"
        subprocess.run(["cc", "-shared", "-fPIC", "-O1", "-o", library, TOP / "tests/memory/refuse.c", "-ldl"], check=True)
        for name, octets in FILES.items():
            (folder / name).write_bytes(octets)
        (folder / "list").write_bytes(b"\0".join(name.encode() for name in FILES))
        (folder / "lines").write_bytes(LINES)
        (folder / "json").write_bytes(JSON)
        for words, names_files in COMMANDS:
            whole = Run(words, folder, library, 0)
            number, met = 1, 0
            while (run := Run(words, folder, library, number)).refused:
                if run.seen() != whole.seen():
                    check(words, names_files, whole, run, number)
                    check_out(words, whole, run, number)
                    met += 1
                number += 1
            if run.seen() != whole.seen():
                fail(words, "differs with no allocation refused")
            print(f"{words}: {number - 1} allocations, {met} of them out of memory")
    finally:
        shutil.rmtree(folder)


main()
