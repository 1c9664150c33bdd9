#!/usr/bin/env python3
"""Builds messages from lines of JSON, and compares them with what is known of the messages and with the builder of the model.

The lines of the valid test vectors of vectors/ and of random APDUs give the octets that the vectors and the model's writer say. Lines that are
changed in some places give the octets that the model's builder says, or its cause and its place. Each line that is built is as
docs/build.schema.json says, which is made here, and each result of --json as docs/built.schema.json says. What the program shows of all test vectors with octets and all examples it builds into
what `canonicalise` writes of them. With --write-defaults the lines of random APDUs give the octets of a writer that writes each default, and
what is built has the same normal form.
Usage: built.py [SEED [COUNT [PROFILE]]], PROFILE being `2`, the default, or `module`; or built.py --write, which writes the schema. Prints
the seed, with which a run is made again. Needs the programs of crates/example_build and crates/illcanon.
"""
import json
import random
import subprocess
import sys
import tempfile
from pathlib import Path

TESTS = Path(__file__).resolve().parents[1]
sys.path[:0] = [str(TESTS), str(TESTS.parent / "vectors")]

from json_lines import PROFILE, SAID_PROFILE, octets_of, of_random, of_vector, schema_text
from model.builder import Builder, Fault, Number, Object, parse
from model.encoder import Writer
from model.schema import Schema
from model.tables import ALL_ROWS, NAMES, NUMBER_NAMES, ROOTS, TOP, random_value, seed_and_count

PROGRAM = TOP / "crates/example_build/out/example_build"
ILLCANON = TOP / "crates/illcanon/out/illcanon"
SCHEMA = TOP / "docs/build.schema.json"
TABLES = json.loads((TESTS / "model/tables.json").read_text())
BUILDERS = [Builder(TABLES, profile) for profile in ROOTS]
# how many lines the program gets at once
BATCH = 20_000

ROW_NAMES = sorted({name for _, names in NAMES.values() for name in names if name})
NUMBERS = ["0", "1", "2", "6", "13", "27", "-1", "-0", "1.0", "1e2", "9223372036854775807", "9223372036854775808", "-9223372036854775808", "-9223372036854775809"]
TEXTS = ["", "A", "20240229", "20230229", "240000", "250000", "0500", "05000", "05FF", "1.2.3", "1.40", "oid 80", "\u00e9", "\u0100", "\U0001f4da", "\x1b", "\x7f",
         "module", "2", "general", "Expired", *(name for names in NUMBER_NAMES.values() for name in names.values())]


def write(value):
    """The text of a value of JSON, whose objects are lists of pairs and whose numbers are texts."""
    if isinstance(value, Object):
        return "{" + ",".join(f"{json.dumps(name)}:{write(inner)}" for name, inner in value) + "}"
    if isinstance(value, list):
        return "[" + ",".join(map(write, value)) + "]"
    return value if isinstance(value, Number) else json.dumps(value)


def line_of(apdu, value):
    return json.dumps({"apdu": apdu, **SAID_PROFILE, "value": value})


# ---- messages that are known


def vector_lines():
    """The line and the normal form of each valid test vector."""
    root = ROOTS[PROFILE]
    nodes = {name: row.node for name, row in zip(NAMES[root][1], ALL_ROWS[root])}
    for path in sorted((TOP / "vectors").glob("*.json")):
        book = json.loads(path.read_text())
        for vector in (vector for group in book.get("groups", []) for vector in group["vectors"]):
            if "value" in vector and PROFILE in vector.get("profiles", [book.get("profile", "2")]):
                yield line_of(vector["apdu"], of_vector(nodes[vector["apdu"]], "", vector["value"])), octets_of(vector, "normal", "normal_runs").hex()


class DefaultsWriter(Writer):
    """The normal form, and each default besides."""

    def writes_default(self):
        return True


def random_lines(chance, count, writer):
    root = ROOTS[PROFILE]
    for _ in range(count):
        apdu = random_value(chance, root)
        row, name = ALL_ROWS[root][apdu[0]], NAMES[root][1][apdu[0]]
        yield line_of(name, of_random(row.node, "", apdu[1])), writer.value(root, apdu, None).hex()


# ---- changes


def places(value):
    """Each place of a value that holds another, as the list and the index of it."""
    if not isinstance(value, list):
        return
    for i, entry in enumerate(value):
        yield value, i
        yield from places(entry[1] if isinstance(value, Object) else entry)


def other_value(chance, value):
    """A value to stand in the place of this one."""
    if isinstance(value, str) and not isinstance(value, Number) and value and chance.random() < 0.4:
        at = chance.randrange(len(value))
        return value[:at] + chance.choice(["", *"0aAgZ~ .", "\x00", "\x0e", "\u00ff", "\u0100"]) + value[at + chance.randrange(2):]
    names = chance.choice(sorted(NUMBER_NAMES))
    number = Number(chance.choice(NUMBERS))
    return chance.choice([
        None, True, False, number, chance.choice(TEXTS), [], Object(), [value], Object([(chance.choice(ROW_NAMES), value)]),
        Object([("number", number), ("name", chance.choice(list(NUMBER_NAMES[names].values())))]), Object([("bits", number), ("octets", chance.choice(TEXTS))]),
        Object([("general", chance.choice(TEXTS))]), Object([("visible", chance.choice(TEXTS))]), Object([("octets", chance.choice(TEXTS))]),
        Object([("foreign", chance.choice(TEXTS))]),
    ])


def change(chance, line):
    """Changes one place of a line."""
    holder, i = chance.choice(list(places(line)))
    way = chance.randrange(6)
    if way == 0:
        del holder[i]
    elif way == 1:
        holder.insert(chance.randrange(len(holder) + 1), holder[i])
    elif way == 2:
        chance.shuffle(holder)
    elif not isinstance(holder, Object):
        holder[i] = other_value(chance, holder[i])
    elif way == 3:
        holder[i] = (chance.choice([*ROW_NAMES, "x", "a/b~c", "", "profile"]), holder[i][1])
    else:
        holder[i] = (holder[i][0], other_value(chance, holder[i][1]))


def changed_text(chance, text):
    """The text with another character, with one more or with one less."""
    at = chance.randrange(len(text))
    return text[:at] + chance.choice(["", *'"{}[],:0\\ x\t\u0001']) + text[at + chance.randrange(2):]


ESCAPES = {**{octet: f"\\x{octet:02x}" for octet in (*range(0x20), *range(0x7F, 0x100))}, 9: "\\t", 10: "\\n", 13: "\\r", **{octet: "\\" + chr(octet) for octet in b"\"'\\"}}


def escaped(pointer):
    """The octets of a pointer, as Rust escapes them."""
    return "".join(ESCAPES.get(octet, chr(octet)) for octet in pointer.encode())


def answer(text, builders=BUILDERS):
    """What the program says of a line, as the model has it in the first of these profiles that the line doesn't exclude."""
    fault = None
    for builder in builders:
        try:
            return builder.line(text).hex()
        except Fault as refused:
            fault = refused
        if fault.cause != "OtherProfile":
            break
    return f'refused at "{escaped(fault.pointer())}": {fault.cause}'


def changed_lines(chance, lines, count):
    for _ in range(count):
        line = parse(chance.choice(lines))
        for _ in range(chance.choice([1, 1, 1, 2, 3])):
            if line:
                change(chance, line)
        text = write(line)
        text = changed_text(chance, text) if chance.random() < 0.05 else text
        yield text, answer(text)


# ---- the comparison


def compare(pairs):
    """The number of lines. The program gives each line its answer."""
    for start in range(0, len(pairs), BATCH):
        batch = pairs[start:start + BATCH]
        done = subprocess.run([PROGRAM], input="".join(text + "\n" for text, _ in batch).encode(), capture_output=True, check=True)
        answers = done.stdout.decode().split("\n")[:-1]
        for (text, wanted), found in zip(batch, answers, strict=True):
            if found != wanted:
                sys.exit(f"built.py: {text}\n is {found}\n not {wanted}")
    return len(pairs)


def fit(schema, pairs):
    """Lines that are built are as the schema says."""
    for text, wanted in pairs:
        fault = None if wanted.startswith("refused") else schema.fault(json.loads(text))
        if fault:
            sys.exit(f"built.py: {text}\n is built, and {fault}")


# ---- the program


def octets_of_vectors():
    """The octets of each test vector that has them as they are, whatever the profile and the result."""
    for path in sorted((TOP / "vectors").glob("*.json")):
        for vector in (vector for group in json.loads(path.read_text()).get("groups", []) for vector in group["vectors"]):
            if "octets" in vector:
                yield bytes.fromhex(vector["octets"])


def illcanon(*words, given=None):
    """What the program prints. Refused messages are reported on standard error, which is left out."""
    return subprocess.run([ILLCANON, *words], input=given, stdout=subprocess.PIPE, stderr=subprocess.DEVNULL).stdout


def build_what_is_shown():
    """The number of lines that the program shows, and builds into what it writes as normal forms."""
    with tempfile.TemporaryDirectory() as folder:
        paths = sorted((TOP / "examples").glob("*.ber"))
        for i, octets in enumerate(octets_of_vectors()):
            paths.append(Path(folder, f"{i}.ber"))
            paths[-1].write_bytes(octets)
        files = Path(folder, "list")
        files.write_bytes(b"".join(bytes(path) + b"\0" for path in paths))
        options = ["--keep-going", "--profile", PROFILE, "--files-from", files]
        shown, normal = illcanon("show", "--json", *options), illcanon("canonicalise", "-o", "-", *options)
    profile = ["--profile", PROFILE, "-", "-"]
    if illcanon("build", *profile, given=shown) != normal:
        sys.exit("built.py: what is shown is not built into the normal forms")
    spelled = illcanon("build", "--write-defaults", *profile, given=shown)
    if spelled == normal or illcanon("canonicalise", *profile, given=spelled) != normal:
        sys.exit("built.py: with defaults, what is shown is not built into messages of these normal forms")
    return shown.count(b"\n")


def build_results(lines):
    """The results of --json are as docs/built.schema.json says, in turn, and have the octets and causes of the model."""
    schema = Schema(json.loads((TOP / "docs/built.schema.json").read_text()))
    own = [Builder(TABLES, PROFILE)]
    given = "".join(text + "\n" for text in lines).encode()
    named = ["-H"] if PROFILE == "module" else []
    found = illcanon("build", "--json", "--keep-going", *named, "--profile", PROFILE, "-", "-", given=given).decode().split("\n")[:-1]
    for i, (text, line) in enumerate(zip(lines, found, strict=True), 1):
        result = json.loads(line)
        fault = schema.fault(result)
        if fault:
            sys.exit(f"built.py: {line}\n is a result, and {fault}")
        said = result["message"] if "message" in result else result["refused"]["cause"]
        if (result.get("file"), result["line"], said) != ("-" if named else None, i, answer(text, own).rsplit(" ", 1)[-1]) or "message" in result and 2 * result["octets"] != len(said):
            sys.exit(f"built.py: {text}\n has the result {line}")


def build_defaults(pairs):
    """Lines are built with each default, as these octets say."""
    given = "".join(text + "\n" for text, _ in pairs).encode()
    found = illcanon("build", "--write-defaults", "--hex", "--profile", PROFILE, "-", "-", given=given).decode().split("\n")[:-1]
    for (text, wanted), digits in zip(pairs, found, strict=True):
        if digits != wanted:
            sys.exit(f"built.py: with defaults {text}\n is {digits}\n not {wanted}")


def main():
    made = schema_text(loose=True)
    if sys.argv[1:] == ["--write"]:
        SCHEMA.write_text(made)
        return
    if SCHEMA.read_text() != made:
        sys.exit("docs/build.schema.json isn't what built.py --write makes")
    seed, count = seed_and_count()
    chance = random.Random(seed)
    vectors = list(vector_lines())
    known = list(random_lines(chance, count, Writer()))
    lines = [text for text, _ in vectors + known if len(text) < 4096]
    changed = list(changed_lines(chance, lines, 10 * count))
    causes = sorted({said.rsplit(" ", 1)[1] for _, said in changed if said.startswith("refused")})
    counts = [compare(pairs) for pairs in (vectors, known, changed)]
    build_results([text for text, _ in known + changed if "\n" not in text and len(text) < 4096][:4 * count])
    build_defaults(list(random_lines(chance, count, DefaultsWriter())))
    fit(Schema(json.loads(made)), [pair for pair in vectors + known + changed if len(pair[0]) < 4096][:4 * count])
    print(f"seed {seed}, profile {PROFILE}: {counts[0]} test vectors, {counts[1]} random APDUs and {counts[2]} changed lines, all right; {len(causes)} causes; {build_what_is_shown()} lines of the program")


if __name__ == "__main__":
    main()
