#!/usr/bin/env python3
"""Time and memory of the program on messages of the greatest size: notes, lists of the smallest items of each kind, and a long text; in the module
profile lists of every node that it has, and values of open types.

Prints each, and fails where one takes more than a second of processor time for a megabyte of input, or more memory than is said below. Needs the
program built, and GNU time (Debian's package `time`). Usage: worst.py [PROFILE], PROFILE being `2`, the default, or `module`
"""
import subprocess
import sys
import tempfile
from itertools import chain
from pathlib import Path

sys.path.insert(0, str(Path(__file__).resolve().parents[1]))

from model.encoder import Writer
from model.tables import ALL_LISTS, ALL_ROWS, CHOICES, LEVELS, NULL, PROGRAM, ROOTS, Bits, Tree, default_of, reached

PROFILE = sys.argv[1] if len(sys.argv) > 1 else "2"
PROFILE_WORDS = [] if PROFILE == "2" else ["--profile", PROFILE]
ROOT = ROOTS[PROFILE]
LIMIT = 1_048_576
# the commands, and how many kilobytes each may take beyond the input
COMMANDS = {"check": 8 * 1024, "canonicalise": 8 * 1024, "show": 16 * 1024, "show --json": 48 * 1024}
LEAST = {"Boolean": False, "Integer": 0, "Enumerated": 0, "IsoDate": "20240229", "IsoTime": "000000", "PrintableString": ""}
LEAST |= {"Null": NULL, "ObjectIdentifier": b"\0", "OctetString": b"", "BitString": Bits(0, b""), "ObjectDescriptor": "", "Any": Tree(("universal", 5), b"")}


def leasts(node, deep=True):
    """The smallest value of a node, and each with one optional part beside, so far as deep."""
    if node == "IllString":
        return [("general", ""), ("general", "L")] if deep else [("general", "")]
    if node in CHOICES:
        chosen = [i for i, row in enumerate(ALL_ROWS[node]) if row.presence != "LeftOut"]
        return [(i, value) for i in (chosen if deep else chosen[:1]) for value in leasts(ALL_ROWS[node][i].node, deep)]
    if node in ALL_LISTS:
        return [[]]
    if node not in ALL_ROWS:
        return [LEAST[node]]
    least = [leasts(row.node, False)[0] if row.presence == "Must" else default_of(row) for row in ALL_ROWS[node]]
    places = [i for i, row in enumerate(ALL_ROWS[node]) if row.presence in ("Must", "May")] if deep else []
    found = [least]
    found += [least[:i] + [value] + least[i + 1 :] for i in places for value in leasts(ALL_ROWS[node][i].node) if value != least[i]]
    return found


def holding(node, wanted):
    """The smallest value of a node in which the list is, or None."""
    if node == wanted:
        return []
    for i, row in enumerate(ALL_ROWS.get(node, [])):
        inner = holding(row.node, wanted) if row.presence != "LeftOut" and node not in ALL_LISTS else None
        if inner is not None and node in CHOICES:
            return i, inner
        if inner is not None:
            least = leasts(node, False)[0]
            return least[:i] + [inner] + least[i + 1 :]
    return None


class Filler(Writer):
    """Writes these octets as the contents of one node."""

    def __init__(self, node, octets):
        self.node, self.octets = node, octets

    def contents(self, node, value):
        return self.octets if node == self.node else super().contents(node, value)


def lists(limit=LIMIT):
    """For each list and each of its smallest items, the message of at most as many octets with the most of them."""
    for node in sorted(ALL_LISTS & set(reached(ROOT))):
        row = ALL_ROWS[node][0]
        apdu = holding(ROOT, node)
        for item in leasts(row.node):
            octets = Writer().row(row, item)
            count = (limit - len(Filler(node, bytes(limit // 2)).value(ROOT, apdu, None)) + limit // 2) // len(octets)
            message = Filler(node, octets * count).value(ROOT, apdu, None)
            assert limit - len(octets) < len(message) <= limit, (node, item)
            yield f"{node} of {count} {octets.hex()}", message, []


def smalls():
    """The largest note, in one piece and in the smallest ones, a list of up to 65,535 octets, and the messages of a long text."""
    head = bytes.fromhex("800102a10aa1031b0147a2031b0151a20ca00a80083230323430323239")
    front = b"\x71\x80\x30\x80" + head + b"\xbf\x2e\x80"
    yield "a note in one piece", front + b"\x1b\x83\x0f\xff\xce" + b"A" * 1_048_526 + bytes(6), []
    nested = front + b"\x3b\x80" + b"\x24\x80" * 27 + b"\x04\x01A" * 349_474 + bytes(62)
    yield "a note in segments of an octet, nested to depth 32", nested, []
    answer = b"\x64\x82\xff\xfa\x30\x82\xff\xf6" + head + b"\x9f\x1f\x01\x02\xbf\x22\x82\xff\xd0"
    yield "AlreadyTriedList of 32744 3000", answer + b"\x30\x00" * 32_744, []
    expired = b"\x74\x1f\x30\x1d" + head
    yield "text of 60,000 messages", (expired.hex() * 60_000).encode(), ["--hex"]


def trees():
    """Values of open types in the item of an extension: the smallest elements, as deep as they may be, and one octet each in a tree of its own."""
    head = bytes.fromhex("800102a10aa1031b0147a2031b0151a20ca00a80083230323430323239")
    front = b"\x74\x80\x30\x80" + head + b"\xbf\x31\x80\x30\x80\x80\x01\x01\xa2\x80"
    if PROFILE == "2":
        return
    for title, inner in [("NULLs", b"\x05\x00"), ("empty elements in indefinite form", b"\x30\x80\0\0"), ("octets", b"\x04\x01A")]:
        for levels in (2, LEVELS):
            outer = b"\x30\x80" * (levels - 1)
            count = (LIMIT - 200) // len(inner)
            yield f"{title} on {levels} levels", front + outer + inner * count + bytes(2 * (levels - 1) + 10), []


def run(command, words, folder):
    """The seconds of processor time, the kilobytes and the status of a command on the file of the message."""
    outs = [folder / "out"] if command == "canonicalise" else []
    call = ["/usr/bin/time", "-q", "-o", folder / "time", "-f", "%U %S %M", PROGRAM, *command.split(), *PROFILE_WORDS, *words, folder / "message", *outs]
    done = subprocess.run(call, stdout=subprocess.DEVNULL, stderr=subprocess.PIPE, text=True)
    user, system, kilobytes = (folder / "time").read_text().split()
    return float(user) + float(system), int(kilobytes), done.returncode, done.stderr


def main():
    failed, most = 0, []
    with tempfile.TemporaryDirectory() as name:
        folder = Path(name)
        for title, message, words in chain(smalls(), lists(), trees()):
            (folder / "message").write_bytes(message)
            for command, bound in COMMANDS.items():
                seconds, kilobytes, status, said = run(command, words, folder)
                most.append((kilobytes, title, command))
                slow = seconds > max(1, len(message) / 1_000_000)
                large = kilobytes > bound + len(message) // 1024
                wrong = status not in ((0, 1) if command == "check" else (0,)) or said
                failed += slow or large or bool(wrong)
                print(f"{seconds:5.2f} s {kilobytes / 1024:6.1f} MB  {command:12} {title}{'  FAILED ' + said if slow or large or wrong else ''}")
    print(f"the most: {max(most)[0] / 1024:.1f} MB, {max(most)[2]} of {max(most)[1]}; {len(most) - failed} passed, {failed} failed")
    sys.exit(1 if failed else 0)


if __name__ == "__main__":
    main()
