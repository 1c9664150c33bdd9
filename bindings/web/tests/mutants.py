#!/usr/bin/env python3
"""Changes one octet of the module's code at COUNT places, a comparison that a branch goes by, which is turned round: compare.py has to see it.

mutants.py [COUNT]. The places are spread over the code, and each is one that the test vectors reach: a trap there is seen. A branch that only
chooses between two ways to one answer isn't seen, as when a buffer is written before it is full. About a quarter are such branches, so half of the
places have to be seen. It needs wabt.
"""
import re
import subprocess
import sys
import tempfile
from pathlib import Path

HERE = Path(__file__).resolve().parent
MODULE = HERE.parent / "build/illcanon.wasm"
# Each comparison of integers, with its opposite. Each is one octet, and has the same operands.
OPPOSITES = [(0x46, 0x47), (0x48, 0x4E), (0x49, 0x4F), (0x4A, 0x4C), (0x4B, 0x4D), (0x51, 0x52), (0x53, 0x59), (0x54, 0x5A), (0x55, 0x57), (0x56, 0x58)]
TURNED = {one: other for pair in OPPOSITES for one, other in (pair, pair[::-1])}
TRAP = 0x00
SECONDS = 600


def decisions():
    """The places of the comparisons that a branch goes by."""
    listed = subprocess.run(["wasm-objdump", "-d", MODULE], capture_output=True, text=True, check=True).stdout
    lines = re.findall(r"^ ([0-9a-f]+): ([0-9a-f ]+?) *\| *(\w+)", listed, re.M)
    for (at, octets, _), (_, _, following) in zip(lines, lines[1:]):
        if len(octets) == 2 and int(octets, 16) in TURNED and following in ("br_if", "if"):
            yield int(at, 16)


def is_seen(module, at, octet):
    """Says whether compare.py sees the module with another octet there."""
    with tempfile.TemporaryDirectory() as folder:
        path = Path(folder, "mutant.wasm")
        path.write_bytes(module[:at] + bytes([octet]) + module[at + 1 :])
        subprocess.run(["wasm-validate", path], check=True)
        try:
            return subprocess.run([HERE / "compare.py", "--small", "--module", path], capture_output=True, timeout=SECONDS).returncode != 0
        except subprocess.TimeoutExpired:
            return True


def main():
    count = int(sys.argv[1]) if len(sys.argv) > 1 else 24
    module, places = MODULE.read_bytes(), list(decisions())
    seen = 0
    for i in range(count):
        begin, end = len(places) * i // count, len(places) * (i + 1) // count
        at = next((at for at in places[(begin + end) // 2 : end] if is_seen(module, at, TRAP)), None)
        if at is None:
            sys.exit(f"mutants.py: the test vectors reach no branch of those from octet {places[begin]} to {places[end - 1]}")
        found = is_seen(module, at, TURNED[module[at]])
        seen += found
        print(f"octet {at}: {'seen' if found else 'not seen'}", flush=True)
    print(f"{seen} of {count} changes were seen, of {len(places)} branches")
    return 2 * seen < count


if __name__ == "__main__":
    sys.exit(main())
