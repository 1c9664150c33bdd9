#!/usr/bin/env python3
"""Compares with another text: random APDUs, spelled at random, must be shown as it is written here.

Goes by the tables and names of model/tables.py. Needs the program built.
Usage: shown.py [SEED [COUNT [PROFILE]]], PROFILE being `2`, the default, or `module`. Prints the seed, with which a run is made again.
"""
import random
import subprocess
import sys
from pathlib import Path

sys.path.insert(0, str(Path(__file__).resolve().parents[1]))

from model.encoder import Speller, Writer
from model.tables import ALL_LISTS, ALL_ROWS, CHOICES, NAMED_IN_TEXT, NAMES, NUMBER_NAMES, PROGRAM, ROOTS, profile_and_words, random_value, seed_and_count


def quoted(text):
    escapes = {c: "\\" + c for c in '"\\'}
    return '"' + "".join(escapes.get(c, c) if " " <= c <= "~" else f"\\x{ord(c):02x}" for c in text) + '"'


def octets_text(octets):
    """Octets in quotes where all are printable ASCII, else in hexadecimal."""
    return quoted(octets.decode("ascii")) if all(0x20 <= octet <= 0x7E for octet in octets) else octets.hex()


def identifier_text(content):
    """An OBJECT IDENTIFIER: its numbers, or its content where one takes more than 63 bits."""
    numbers, number = [], 0
    for octet in content:
        number = number << 7 | octet & 0x7F
        if octet < 0x80:
            numbers.append(number)
            number = 0
    if max(numbers) >= 1 << 63:
        return f"oid {content.hex()}"
    root = min(numbers[0] // 40, 2)
    return ".".join(map(str, [root, numbers[0] - 40 * root, *numbers[1:]]))


def tree_text(tree):
    is_primitive = isinstance(tree.contents, bytes)
    identifier = Writer().identifier(tree.tag, not is_primitive).hex()
    return f"{identifier}:{octets_text(tree.contents)}" if is_primitive else f"{identifier}{{{' '.join(map(tree_text, tree.contents))}}}"


# what only the module profile has
MODULE_TEXTS = {
    "Null": lambda value: "NULL",
    "ObjectIdentifier": identifier_text,
    "OctetString": lambda value: f"octets {octets_text(value)}",
    "BitString": lambda value: f"bits {value.count} {value.octets.hex()}".rstrip(),
    "ObjectDescriptor": lambda value: f"descriptor {quoted(value)}",
    "Any": lambda value: f"foreign {tree_text(value)}",
}


def leaf_text(node, name, value):
    if node == "Boolean":
        return "TRUE" if value else "FALSE"
    if node in ("Integer", "Enumerated"):
        names = NUMBER_NAMES[name] if name in NAMED_IN_TEXT else {}
        return f"{value} ({names[value]})" if value in names else str(value)
    if node == "IllString":
        return f"{value[0]} {quoted(value[1])}"
    if node in MODULE_TEXTS:
        return MODULE_TEXTS[node](value)
    return quoted(value) if node == "PrintableString" else value


def lines(path, name, node, value):
    """The lines of a value at a path, in a row of this name."""
    if node in CHOICES:
        row, chosen = ALL_ROWS[node][value[0]], NAMES[node][1][value[0]]
        yield from lines(within(path, chosen), chosen, row.node, value[1])
    elif node in ALL_LISTS:
        for i, item in enumerate(value):
            yield from lines(f"{path}[{i}]", name, ALL_ROWS[node][0].node, item)
        if not value:
            yield f"{path} = []"
    elif node in ALL_ROWS:
        for row, row_name, entry in zip(ALL_ROWS[node], NAMES[node][1], value):
            if entry is not None:
                yield from lines(within(path, row_name), row_name, row.node, entry)
        if all(entry is None for entry in value):
            yield f"{path} = {{}}"
    else:
        yield f"{path} = {leaf_text(node, name, value)}"


def within(path, name):
    """A path and the name of a row in it. A row without a name, as that of EXTERNAL's own tag, adds nothing."""
    return f"{path}.{name}" if path and name else path or name


def text(number, apdu, profile="2"):
    row, body = apdu
    root = ROOTS[profile]
    head = f"message {number} {NAMES[root][1][row]}"
    return "".join(line + "\n" for line in [head, *lines("", "", ALL_ROWS[root][row].node, body)])


def main():
    seed, count = seed_and_count()
    profile, words = profile_and_words()
    chance, root = random.Random(seed), ROOTS[profile]
    apdus = [random_value(chance, root) for _ in range(count)]
    spelled = b"".join(Speller(chance).value(root, apdu, None) for apdu in apdus)
    done = subprocess.run([PROGRAM, "show", *words, "-"], input=spelled, capture_output=True)
    right = done.stdout.decode() == "".join(text(i + 1, apdu, profile) for i, apdu in enumerate(apdus))
    print(f"seed {seed}, profile {profile}: {count} APDUs,", "all right" if right and done.returncode == 0 else f"not right: {done.stderr}")
    sys.exit(0 if right and done.returncode == 0 else 1)


if __name__ == "__main__":
    main()
