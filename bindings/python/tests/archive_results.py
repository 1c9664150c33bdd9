#!/usr/bin/env python3
"""The results of an archive from Python: 450 files with 200,000 messages, of which 50 are refused, as tests/program/archive.py makes it.

Each file is read as a stream and, one in nine of them, as octets. What each result is has to be what is known of the messages: of a good one
the number, the octets, the APDU and whether it is in normal form; of a refused one a `Refused` with its number, its place in the file, its
octets and the fault. Needs the package installed.
Usage: archive_results.py [SEED [COUNT [PROFILE]]], COUNT being the messages, and PROFILE `2`, the default, or `module`. Prints the seed, with
which a run is made again.
"""
import random
import sys
import tempfile
import time
from pathlib import Path

TOP = Path(__file__).resolve().parents[3]
sys.path[:0] = [str(TOP / "tests"), str(TOP / "tests" / "program")]

import illcanon
from archive import BAD, CAUSE, FILES, MESSAGES, PROFILE, REFUSED, Archive, expect


def lines_of(name, octets, found):
    """What the results of a file say: a line for each good message and one for each refused one, as the program's; and their number."""
    good, refused, at, count = [], [], 0, 0
    for count, result in enumerate(found, 1):
        if isinstance(result, illcanon.Refused):
            expect((result.message, result.start, result.octets, result.end_known) == (count, at, REFUSED, True), name, vars(result))
            refused.append(f"illcanon: {name}: {result}")
        else:
            expect((result.number, result.offset) == (count, at), name, result)
            said = illcanon.parse(result.octets, result.number, result.offset, profile=PROFILE)
            expect((said["number"], said["offset"], said["octets"]) == (count, at, len(result.octets)), name, said)
            end = "normal" if said["normal"] else f"not normal, normal form {len(illcanon.normalise(result.octets, profile=PROFILE))} octets"
            good.append(f"{name}: message {count}: {said['apdu']}, {len(result.octets)} octets, {end}")
        expect(octets[at : at + len(result.octets)] == result.octets, name, count, "the octets differ")
        at += len(result.octets)
    expect(at == len(octets), name, "results of", at, "octets, and it has", len(octets))
    return good, refused, count


def main():
    seed = int(sys.argv[1]) if len(sys.argv) > 1 else random.randrange(1_000_000)
    print(f"seed {seed}, profile {PROFILE}")
    with tempfile.TemporaryDirectory() as folder:
        archive = Archive(Path(folder), random.Random(seed), FILES, MESSAGES, BAD)
        started = time.monotonic()
        lines, refusals, count = [], [], 0
        for number, name in enumerate(archive.names):
            octets = (archive.folder / name).read_bytes()
            with open(archive.folder / name, "rb") as file:
                found = lines_of(name, octets, illcanon.results(file if number % 9 else octets, profile=PROFILE))
            lines += found[0]
            refusals += found[1]
            count += found[2]
        expect(lines == archive.lines, "the good messages differ")
        expect(refusals == archive.refusals and len(refusals) == BAD, "the refused messages differ")
        expect(count == MESSAGES, count, "results, and", MESSAGES, "messages")
        print(f"{count} results, {len(refusals)} of them refused ({CAUSE.format('N')}): as known; {time.monotonic() - started:.1f} seconds")


main()
