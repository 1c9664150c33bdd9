#!/usr/bin/env python3
"""Compares with another encoder: random APDUs, each spelled at random, must come to the normal form that is written here. Every second one is
spelled in usual elements alone.

Needs the program built. Usage: spellings.py [SEED [COUNT [PROFILE]]], PROFILE being `2`, the default, or `module`. Prints the seed, with which a
run is made again.
"""
import random
import subprocess
import sys
import tempfile
from pathlib import Path

sys.path.insert(0, str(Path(__file__).resolve().parents[1]))

from model.encoder import Speller, Writer, spelled_usually
from model.tables import PROGRAM, ROOTS, profile_and_words, random_value, seed_and_count


def spelled(chance, root, usually):
    """A random APDU, and a spelling of it."""
    if usually:
        return spelled_usually(chance, root, random_value)
    apdu = random_value(chance, root)
    return apdu, Speller(chance).value(root, apdu, None)


def main():
    seed, count = seed_and_count()
    profile, words = profile_and_words()
    root = ROOTS[profile]
    chance = random.Random(seed)
    messages = [spelled(chance, root, number % 2 == 1) for number in range(count)]
    with tempfile.TemporaryDirectory() as folder:
        source, normal = Path(folder, "spelled"), Path(folder, "normal")
        source.write_bytes(b"".join(octets for _, octets in messages))
        done = subprocess.run([PROGRAM, "canonicalise", *words, source, normal], stderr=subprocess.PIPE, text=True)
        right = normal.read_bytes() == b"".join(Writer().value(root, apdu, None) for apdu, _ in messages)
    print(f"seed {seed}, profile {profile}: {count} APDUs,", "all right" if right and done.returncode == 0 else f"not right: {done.stderr}")
    sys.exit(0 if right and done.returncode == 0 else 1)


if __name__ == "__main__":
    main()
