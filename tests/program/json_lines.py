#!/usr/bin/env python3
"""Reads what `show --json` writes with Python's reader and with jq, and compares it with what is known of the messages.

The valid test vectors of vectors/ have their values, alone, one after another and in two files; random APDUs, spelled at random, have theirs
as the tables and names of the model say them. Each line is as docs/show.schema.json says, which is made here, and ASCII.
Usage: json_lines.py [SEED [COUNT [PROFILE]]], PROFILE being `2`, the default, or `module`; or json_lines.py --write, which writes the schema.
Prints the seed, with which a run is made again. Needs the program built.
"""
import json
import random
import shutil
import subprocess
import sys
import tempfile
from pathlib import Path

TESTS = Path(__file__).resolve().parents[1]
sys.path[:0] = [str(TESTS), str(TESTS.parent / "vectors")]

from model.encoder import Speller, Writer
from model.schema import Schema
from shown import identifier_text
from model.tables import ALL_LISTS, ALL_ROWS, CHOICES, NAMES, NUMBER_NAMES, PROGRAM, ROOTS, TOP, profile_and_words, random_value, reached, seed_and_count

from rules.values import identifier_from_json

SCHEMA = TOP / "docs/show.schema.json"
PROFILE, PROFILE_WORDS = profile_and_words()
# the member of a line that says its profile
SAID_PROFILE = {"profile": "module"} if PROFILE == "module" else {}


def expect(condition, *what):
    if not condition:
        print("json_lines.py:", *what)
        sys.exit(1)


def text_of(value):
    """A text of a test vector, which may be runs."""
    return value if isinstance(value, str) else "".join(bytes.fromhex(unit).decode("latin-1") * count for unit, count in value)


def items_of(value):
    """The items of a test vector's list, which may be one item and its count."""
    return [value["item"]] * value["count"] if isinstance(value, dict) else value


def number_of(name, value):
    names = NUMBER_NAMES.get(name, {})
    return {"number": value, "name": names[value]} if value in names else value


def octets_of_value(value):
    """The octets of a test vector's value, in hexadecimal, which may be runs."""
    runs = value.get("runs", value.get("foreign_runs"))
    return "".join(unit * count for unit, count in runs) if runs else value.get("octets", value.get("foreign"))


def of_vector(node, name, value):
    """The value of a test vector, in a row of this name, as a line has it."""
    if node == "TaggedExternal":
        return of_vector("External", "", value)
    if node in ALL_LISTS:
        return [of_vector(ALL_ROWS[node][0].node, name, item) for item in items_of(value)]
    if node in ALL_ROWS:
        nodes = dict(zip(NAMES[node][1], (row.node for row in ALL_ROWS[node])))
        return {inner: of_vector(nodes[inner], inner, entry) for inner, entry in value.items()}
    if node in ("Boolean", "Null", "BitString"):
        return value
    if node in ("OctetString", "Any"):
        return {"octets" if node == "OctetString" else "foreign": octets_of_value(value)}
    if node == "ObjectIdentifier":
        return identifier_text(identifier_from_json(value))
    if node in ("Integer", "Enumerated"):
        return number_of(name, int(value))
    return {kind: text_of(text) for kind, text in value.items()} if node == "IllString" else text_of(value)


# what only the module profile has
MODULE_LEAVES = {
    "Null": lambda value: None,
    "ObjectIdentifier": identifier_text,
    "OctetString": lambda value: {"octets": value.hex()},
    "BitString": lambda value: {"bits": value.count, "octets": value.octets.hex()},
    "Any": lambda value: {"foreign": Writer().tree(value).hex()},
}


def of_random(node, name, value):
    """The value of a random APDU, in a row of this name, as a line has it."""
    if node in CHOICES:
        row, chosen = ALL_ROWS[node][value[0]], NAMES[node][1][value[0]]
        inner = of_random(row.node, chosen, value[1])
        return {chosen: inner} if chosen else inner
    if node in ALL_LISTS:
        return [of_random(ALL_ROWS[node][0].node, name, item) for item in value]
    if node in ALL_ROWS:
        rows = zip(ALL_ROWS[node], NAMES[node][1], value)
        return {inner: of_random(row.node, inner, entry) for row, inner, entry in rows if entry is not None}
    if node in ("Integer", "Enumerated"):
        return number_of(name, value)
    if node in MODULE_LEAVES:
        return MODULE_LEAVES[node](value)
    return {value[0]: value[1]} if node == "IllString" else value


# ---- the schema

OBJECT_IDENTIFIER = "Its numbers, or `oid` and its content in hexadecimal where a number has more than 63 bits."
# EXTERNAL's own tag, whose one row has no name
UNSHOWN = {"TaggedExternal"}


def hexadecimal(description):
    return {"description": description, "type": "string", "pattern": "^([0-9a-f]{2})*$"}


def object_of(members, required):
    return {"type": "object", "required": required, "additionalProperties": False, "properties": members}


def schema_of(node, name):
    if node in ("Integer", "Enumerated"):
        return {"$ref": f"#/$defs/{name}"} if name in NUMBER_NAMES else {"type": "integer"}
    if node == "Boolean":
        return {"type": "boolean"}
    if node in UNSHOWN:
        return schema_of(ALL_ROWS[node][0].node, name)
    if node in ALL_LISTS:
        return {"type": "array", "items": schema_of(ALL_ROWS[node][0].node, name)}
    return {"$ref": f"#/$defs/{NAMES[node][0] if node in ALL_ROWS else node}"}


def node_schema(node, loose):
    rows = [(name, row) for name, row in zip(NAMES[node][1], ALL_ROWS[node]) if row.presence != "LeftOut"]
    members = {name: schema_of(row.node, name) for name, row in rows}
    if node in CHOICES:
        return {**object_of(members, []), "minProperties": 1, "maxProperties": 1}
    return object_of(members, [name for name, row in rows if row.presence == "Must" or row.presence == "Default" and not loose])


def named_schema(numbers, loose):
    names = list(numbers.values())
    named = object_of({"number": {"enum": list(numbers)}, "name": {"enum": names}}, ["number", "name"])
    return {"oneOf": [{"type": "integer"}, *([{"enum": names}] if loose else []), named]}


def make_schema(loose=False):
    """The schema of the module profile, which has every part that profile 2 has. The loose one is that of lines that are built."""
    root = ROOTS["module"]
    bodies = [NAMES[row.node][0] for row in ALL_ROWS[root]]
    bit_count = {"description": "How many bits.", "type": "integer", "minimum": 0}
    general, visible = {"general": {"type": "string", "pattern": "^[\u0000-\u00ff]*$"}}, {"visible": {"type": "string", "pattern": "^[ -~]*$"}}
    leaves = {
        "IllString": {**object_of({**general, **visible}, []), "minProperties": 1, "maxProperties": 1},
        "IsoDate": {"type": "string", "pattern": "^[0-9]{8}$"},
        "IsoTime": {"type": "string", "pattern": "^[0-9]{6}$"},
        "PrintableString": {"type": "string", "pattern": "^[A-Za-z0-9 '()+,./:=?-]*$"},
        "Null": {"type": "null"},
        "ObjectIdentifier": {"description": OBJECT_IDENTIFIER, "type": "string", "pattern": "^([0-2]([.][0-9]+)+|oid ([0-9a-f]{2})+)$"},
        "ObjectDescriptor": {"description": "A character for each octet.", "type": "string", "pattern": "^[\u0000-\u00ff]*$"},
        "OctetString": object_of({"octets": hexadecimal("The octets.")}, ["octets"]),
        "BitString": object_of({"bits": bit_count, "octets": hexadecimal("The bits, and 0 for each that is missing.")}, ["bits", "octets"]),
        "Any": object_of({"foreign": hexadecimal("The octets of a value of any type, with the shortest lengths.")}, ["foreign"]),
    }
    names = {name: named_schema(numbers, loose) for name, numbers in NUMBER_NAMES.items()}
    shown = set(reached(root)) - UNSHOWN - ALL_LISTS - {root}
    nodes = {NAMES[node][0]: node_schema(node, loose) for node in ALL_ROWS if node in shown}
    members = {
        "file": {"description": "The name of the file, where there are several.", "type": "string"},
        "number": {"description": "The number of the message in its input.", "type": "integer", "minimum": 1, "maximum": 1_000_000},
        "offset": {"description": "How many octets of the input come before the message.", "type": "integer", "minimum": 0},
        "octets": {"description": "How many octets the message has.", "type": "integer", "minimum": 1, "maximum": 1_048_576},
        "apdu": {"enum": bodies},
        "profile": {"description": "The module profile; not there in profile 2.", "const": "module"},
        "normal": {"description": "Whether the message is in normal form.", "type": "boolean"},
        "value": {"description": "An object of the rows that are there, with the defaults.", "type": "object"},
    }
    if loose:
        unread = {name: {"description": "Not read: it may hold anything."} for name in ("file", "number", "offset", "octets", "normal")}
        value = {"description": "An object of the rows that are there. Defaults may be left out.", "type": "object"}
        members = {**members, **unread, "profile": {"description": "The profile that the line is of.", "enum": list(ROOTS)}, "value": value}
    return {
        "$schema": "https://json-schema.org/draft/2020-12/schema",
        "title": "A line that is built" if loose else "A line of illcanon show --json",
        **object_of(members, ["apdu", "value"] if loose else [name for name in members if name not in ("file", "profile")]),
        "oneOf": [{"properties": {"apdu": {"const": name}, "value": {"$ref": f"#/$defs/{name}"}}} for name in bodies],
        "$defs": {**leaves, **names, **nodes},
    }


def block(value):
    """A list or object over many lines: one for each of its parts."""
    if isinstance(value, dict):
        return "{\n" + ",\n".join(f"    {json.dumps(name)}: {json.dumps(part)}" for name, part in value.items()) + "\n  }"
    return "[\n" + ",\n".join(f"    {json.dumps(part)}" for part in value) + "\n  ]"


def schema_text(loose=False):
    parts = [f"  {json.dumps(name)}: {block(part) if name in ('properties', 'oneOf', '$defs') else json.dumps(part)}" for name, part in make_schema(loose).items()]
    return "{\n" + ",\n".join(parts) + "\n}\n"


# ---- lines


def distinct(pairs):
    names = [name for name, _ in pairs]
    expect(len(names) == len(set(names)), "a member twice:", names)
    return dict(pairs)


def run(words, octets=b""):
    done = subprocess.run([PROGRAM, "show", "--json", *PROFILE_WORDS, *words], input=octets, capture_output=True, check=False)
    return done.returncode, done.stdout, done.stderr.decode()


def in_jq(output, lines):
    """jq reads the same; it holds numbers in doubles."""
    if not shutil.which("jq"):
        return
    done = subprocess.run(["jq", "-c", "."], input=output, capture_output=True, check=False)
    expect(done.returncode == 0, "jq:", done.stderr.decode())
    found = [json.loads(line, parse_int=float) for line in done.stdout.decode().split("\n")[:-1]]
    expect(found == [json.loads(line, parse_int=float) for line in lines], "jq reads another text")


def compare(schema, words, octets, wanted):
    """The program writes these lines of these octets, or of the files of the words."""
    status, output, errors = run(words, octets)
    expect(status == 0 and not errors, words, status, errors)
    text = output.decode("ascii")
    expect(text.endswith("\n") or not wanted, "no line feed at the end")
    lines = text.split("\n")[:-1]
    expect(len(lines) == len(wanted), len(lines), "lines of", len(wanted), "messages")
    for line, want in zip(lines, wanted):
        found = json.loads(line, object_pairs_hook=distinct)
        expect(list(found) == list(want) and json.dumps(found) == json.dumps(want), f"\n  {line[:1000]}\nand not\n  {json.dumps(want)[:1000]}")
        expect(line == json.dumps(found, ensure_ascii=True, separators=(",", ":")), "not written as Python writes it:", line[:1000])
        fault = schema.fault(found)
        expect(fault is None, fault)
    in_jq(output, lines)


def lines_of(messages, file=None):
    """The lines of messages: pairs of octets and what else the line says."""
    offset, lines = 0, []
    for number, (octets, said) in enumerate(messages, 1):
        lines.append({**({"file": file} if file else {}), "number": number, "offset": offset, "octets": len(octets), **said})
        offset += len(octets)
    return lines


def octets_of(vector, name, runs):
    return bytes.fromhex(vector[name]) if name in vector else b"".join(bytes.fromhex(unit) * count for unit, count in vector[runs])


def read_vectors():
    """The valid test vectors, as pairs of octets and what the line says of them."""
    root = ROOTS[PROFILE]
    nodes = {name: row.node for name, row in zip(NAMES[root][1], ALL_ROWS[root])}
    for path in sorted((TOP / "vectors").glob("*.json")):
        book = json.loads(path.read_text())
        for group in book.get("groups", []):
            for vector in group["vectors"]:
                if "value" in vector and PROFILE in vector.get("profiles", [book.get("profile", "2")]):
                    octets = octets_of(vector, "octets", "runs")
                    value = of_vector(nodes[vector["apdu"]], "", vector["value"])
                    yield octets, {"apdu": vector["apdu"], **SAID_PROFILE, "normal": octets == octets_of(vector, "normal", "normal_runs"), "value": value}


def random_messages(chance, count):
    root = ROOTS[PROFILE]
    for _ in range(count):
        apdu = random_value(chance, root)
        octets, normal = (writer.value(root, apdu, None) for writer in (Speller(chance), Writer()))
        row, name = ALL_ROWS[root][apdu[0]], NAMES[root][1][apdu[0]]
        yield octets, {"apdu": name, **SAID_PROFILE, "normal": octets == normal, "value": of_random(row.node, "", apdu[1])}


def compare_files(schema, messages, more):
    """Two files: each line names its file, and the numbers and offsets begin anew."""
    with tempfile.TemporaryDirectory() as folder:
        paths = [str(Path(folder, name)) for name in ("first", 'the "second" \u00e9\U0001d11e')]
        for path, part in zip(paths, (messages, more)):
            Path(path).write_bytes(b"".join(octets for octets, _ in part))
        compare(schema, paths, b"", lines_of(messages, paths[0]) + lines_of(more, paths[1]))


def main():
    made = schema_text()
    if sys.argv[1:] == ["--write"]:
        SCHEMA.write_text(made)
        return
    expect(SCHEMA.read_text() == made, "docs/show.schema.json isn't what json_lines.py --write makes")
    schema = Schema(json.loads(made))
    seed, count = seed_and_count()
    chance = random.Random(seed)
    vectors = list(read_vectors())
    small = [message for message in vectors if len(message[0]) < 4096]
    chance.shuffle(small)
    for message in [message for message in vectors if len(message[0]) >= 4096] + small[:20]:
        compare(schema, ["-"], message[0], lines_of([message]))
    messages = list(random_messages(chance, count))
    for stream in (small, messages, []):
        compare(schema, ["-"], b"".join(octets for octets, _ in stream), lines_of(stream))
    compare_files(schema, small[:10], messages[:10])
    print(f"seed {seed}, profile {PROFILE}: {len(vectors)} test vectors and {count} random APDUs, all right")


if __name__ == "__main__":
    main()
