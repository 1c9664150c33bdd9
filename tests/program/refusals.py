#!/usr/bin/env python3
"""Spelled APDUs are changed at random, and `illcanon check` has to refuse each at the offset and for the cause that the judge of judge.py gives.
Every second one is spelled in usual elements alone.

Needs the program built. Usage: refusals.py [SEED [COUNT [PROFILE]]], PROFILE being `2`, the default, or `module`. Prints the seed, with which a
run is made again.
"""
import random
import subprocess
import sys
from collections import Counter
from pathlib import Path

sys.path.insert(0, str(Path(__file__).resolve().parents[1]))

from model.encoder import Speller, spelled_usually
from model.judge import Judge, Refused
from model.tables import PROGRAM, ROOTS, Tree, profile_and_words, random_value, seed_and_count

LEVELS = 20
SEQUENCE = ("universal", 16)


def wanted(octets, profile):
    """The line on standard error, empty where all are messages."""
    message = 1
    while octets:
        try:
            octets = octets[Judge(octets, profile).message()[1] :]
        except Refused as fault:
            return fault.line(message)
        message += 1
    return ""


class Misspeller(Speller):
    """A speller that now and then spells what only the module profile has with a content that is none, or with too many levels."""

    def errs(self):
        return self.chance.random() < 0.15

    def leaf(self, node, value, tag):
        if node == "Null" and self.errs():
            return self.element(tag, False, b"\0")
        if node == "ObjectIdentifier" and self.errs():
            return self.element(tag, False, self.chance.choice([b"", b"\x80" + value, value + b"\x80\x01", value + b"\x81"]))
        return super().leaf(node, value, tag)

    def bit_content(self, bits):
        if self.errs():
            return self.chance.choice([b"", b"\x01", bytes([self.chance.randint(8, 255)]) + bits.octets, b"\x04\xf0"])
        return super().bit_content(bits)

    def value(self, node, value, tag):
        if node == "Any" and self.errs():
            for _ in range(self.chance.choice([LEVELS - 2, LEVELS - 1, LEVELS])):
                value = Tree(SEQUENCE, [value])
        return super().value(node, value, tag)


def changed(chance, octets):
    """The octets with one to four changes."""
    octets = bytearray(octets)
    for _ in range(chance.choice([1, 1, 1, 2, 4])):
        place = chance.randrange(len(octets) + 1)
        kind = chance.randrange(6)
        if kind == 0:
            octets[place : place + 1] = bytes([chance.choice([0, 0x80, 0xFF, 0x1F, 0x24, chance.randrange(256)])])
        elif kind == 1:
            del octets[place : place + chance.randint(1, 12)]
        elif kind == 2:
            octets[place:place] = bytes(chance.choice([0, 4, 0x24, 0x80, 0x9F, chance.randrange(256)]) for _ in range(chance.randint(1, 3)))
        elif kind == 3:
            octets[place : place + 1] = bytes(octet ^ 1 << chance.randrange(8) for octet in octets[place : place + 1])
        elif kind == 4:
            del octets[place:]
        else:
            other = chance.randrange(len(octets) + 1)
            octets[place:place] = octets[other : other + chance.randint(1, 20)]
    return bytes(octets)


def misspelled(chance, root, profile, usually):
    """An APDU that is spelled and then changed, or that is not spelled well to begin with."""
    if usually:
        return changed(chance, spelled_usually(chance, root, random_value)[1])
    apdu = random_value(chance, root)
    if profile == "module" and chance.random() < 0.5:
        return Misspeller(chance).value(root, apdu, None)
    return changed(chance, Speller(chance).value(root, apdu, None))


def main():
    seed, count = seed_and_count()
    profile, words = profile_and_words()
    root = ROOTS[profile]
    chance = random.Random(seed)
    causes, wrong = Counter(), 0
    for number in range(count):
        octets = misspelled(chance, root, profile, number % 2 == 1)
        line = wanted(octets, profile)
        causes[line.split()[7] if line else "none"] += 1
        done = subprocess.run([PROGRAM, "check", *words, "-"], input=octets, capture_output=True)
        if done.stderr.decode() != line or line and done.returncode != 1:
            wrong += 1
            print(f"{octets.hex()}: wanted {line!r}, got {done.stderr!r} and status {done.returncode}")
    counts = ", ".join(f"{cause} {times}" for cause, times in causes.most_common())
    print(f"seed {seed}, profile {profile}: {count} inputs, {wrong} not judged so; {counts}")
    sys.exit(1 if wrong else 0)


if __name__ == "__main__":
    main()
