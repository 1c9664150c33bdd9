#!/usr/bin/env python3
"""Instructions an octet, for large messages beside smaller ones that are read the same way: lists of the smallest items of each kind.

Those that are at hand whole have a kilobyte and eight, others 200,000 octets and a megabyte. Prints how many times as many a large message takes,
by callgrind, without the start of the program, and fails where that is more than RATE.
Needs the program built, and valgrind. Usage: linear.py [all]: the least item of each list, or all small items of each, which takes long.
"""
import re
import subprocess
import sys
import tempfile
from pathlib import Path

sys.path.insert(0, str(Path(__file__).resolve().parents[1]))

from model.tables import PROGRAM
from worst import LIMIT, lists

RATE = 1.5
# The sizes of the smaller and the larger messages, and how many of the larger ones are read.
SIZES = (1_024, 8_000, 64), (200_000, LIMIT, 1)


def instructions(command, octets, folder):
    """How many instructions a command takes on the octets."""
    (folder / "messages").write_bytes(octets)
    outs = ["/dev/null"] if command == "canonicalise" else []
    call = ["valgrind", "--tool=callgrind", "--callgrind-out-file=/dev/null", PROGRAM, command, folder / "messages", *outs]
    done = subprocess.run(call, stdout=subprocess.DEVNULL, stderr=subprocess.PIPE, text=True)
    return int(re.search(r"refs:\s*([\d,]+)", done.stderr).group(1).replace(",", ""))


def pairs():
    """Small and large messages of each kind, of as many octets, with the title of a large one."""
    for less, more, count in SIZES:
        before = None
        for (_, small, _), (title, large, _) in zip(lists(less), lists(more)):
            node = title.split()[0]
            if node != before or "all" in sys.argv:
                yield small * (count * len(large) // len(small)), large * count, title
            before = node


def main():
    slow = 0
    with tempfile.TemporaryDirectory() as name:
        folder = Path(name)
        for command in ("check", "show", "canonicalise"):
            start = instructions(command, b"", folder)
            for small, large, title in pairs():
                one, other = ((instructions(command, octets, folder) - start) / len(octets) for octets in (large, small))
                rate = one / other
                slow += rate > RATE
                print(f"{rate:.2f} {command:12} {title}{'  FAILED' if rate > RATE else ''}")
    sys.exit(1 if slow else 0)


if __name__ == "__main__":
    main()
