"""Groups of lines of JSON from which messages are built. What is expected is said where a line is made, and the model's builder has to find it."""
import json
import re
from functools import cache
from pathlib import Path

import model
from model.builder import Builder, Fault, Number, Object
from model.encoder import Writer
from model.tables import ALL_LISTS, ALL_ROWS, CHOICES, NAMES, NUMBER_NAMES, ROOTS

from rules.book import BOTH, SOURCES, written
from rules.messages import HEAD, HEAD_VALUE, along, expired, with_head
from rules.octets import element
from rules.values import identifier_to_json

TABLES = json.loads(Path(model.__file__).with_name("tables.json").read_text())
BUILDERS = {profile: Builder(TABLES, profile) for profile in BOTH}


# ---- the file


class LineBook:
    """The JSON file of lines. Each test vector says which profiles it is of."""

    profile = "2"

    def __init__(self, name, title):
        self.name, self.title, self.groups = name, title, []

    def group(self, name, text, **source):
        """A new group, for a rule; the source says where the rule is from."""
        assert len(source) == 1 and source.keys() <= {*SOURCES, "line"}, source
        self.groups.append(LineGroup({"name": name, **source, "text": text}))
        return self.groups[-1]

    def vectors(self):
        return [vector for group in self.groups for vector in group.vectors]


class LineGroup:
    """The lines of one rule."""

    def __init__(self, rule):
        self.rule, self.vectors = rule, []

    def built(self, name, comment, line, octets, profiles=BOTH):
        """A line that is built into these octets."""
        self.add(name, comment, line, bytes(octets), {"result": "valid", **written("normal", octets)}, profiles)

    def refused(self, name, comment, line, cause, pointer="", profiles=BOTH):
        """A line that is refused for this cause at this place."""
        self.add(name, comment, line, (cause, pointer), {"result": "refused", "cause": cause, "pointer": pointer}, profiles)

    def add(self, name, comment, line, expected, result, profiles):
        name = f"line-{name}"
        assert re.fullmatch(r"[a-z0-9]+(-[a-z0-9]+)*", name), name
        for profile in profiles:
            found = judged(line, profile)
            if found != expected:
                raise AssertionError(f"{name} in profile {profile}: {shown(line)} is judged otherwise: {shown(found)}, not {shown(expected)}")
        self.vectors.append({"id": name, "comment": comment, **fields(line), **result, "profiles": list(profiles)})


def judged(line, profile):
    """The octets that a line is built into, or its cause and its pointer."""
    try:
        return BUILDERS[profile].line(octets_of(line))
    except Fault as fault:
        return fault.cause, fault.pointer()


def shown(value):
    return repr(value)[:400]


# ---- the text of a line


class Runs(list):
    """A line as pairs of a text and how often it is there."""


def octets_of(line):
    if isinstance(line, bytes):
        return line
    return ("".join(unit * count for unit, count in line) if isinstance(line, Runs) else line).encode()


def fields(line):
    """A line as a test vector has it: a text, pairs of a text and a count, or octets where they are no UTF-8."""
    if isinstance(line, bytes):
        return {"line_octets": line.hex()}
    return {"line_runs": [[unit, count] for unit, count in line]} if isinstance(line, Runs) else {"line": line}


def text(value):
    """The text of a value of JSON, in which an Object is a list of pairs and a Number is its text."""
    if isinstance(value, (Object, dict)):
        pairs = value.items() if isinstance(value, dict) else value
        return "{" + ",".join(f"{json.dumps(name)}:{text(inner)}" for name, inner in pairs) + "}"
    if isinstance(value, list):
        return "[" + ",".join(map(text, value)) + "]"
    return str(value) if isinstance(value, Number) else json.dumps(value)


def line_of(apdu, value, **members):
    """The line of an APDU by its name, with more members after it."""
    return text({"apdu": apdu, **members, "value": value})


# ---- values


class Json:
    """A value of JSON in place of one of the encoder's."""

    def __init__(self, value):
        self.value = value


# how a line has what only the module profile has
LEAVES = {
    "Null": lambda value: None,
    "ObjectIdentifier": identifier_to_json,
    "OctetString": lambda value: {"octets": value.hex()},
    "BitString": lambda value: {"bits": value.count, "octets": value.octets.hex()},
    "Any": lambda value: {"foreign": Writer().tree(value).hex()},
}


def said(node, name, value):
    """A value in a row of this name, as `show --json` writes it."""
    if isinstance(value, Json):
        return value.value
    if node in CHOICES:
        row, chosen = ALL_ROWS[node][value[0]], NAMES[node][1][value[0]]
        inner = said(row.node, chosen, value[1])
        return {chosen: inner} if chosen else inner
    if node in ALL_LISTS:
        return [said(ALL_ROWS[node][0].node, name, item) for item in value]
    if node in ALL_ROWS:
        rows = zip(ALL_ROWS[node], NAMES[node][1], value)
        return {inner: said(row.node, inner, entry) for row, inner, entry in rows if entry is not None}
    if node in ("Integer", "Enumerated"):
        return named(name, value)
    if node in LEAVES:
        return LEAVES[node](value)
    return {value[0]: value[1]} if node == "IllString" else value


def named(row, number):
    """A number in a row of this name: with its name where it has one."""
    names = NUMBER_NAMES.get(row, {})
    return {"number": number, "name": names[number]} if number in names else number


def body_of(root, apdu):
    """The name of an APDU of the encoder's, and its value as a line has it."""
    ((name, value),) = said(root, "", apdu).items()
    return name, value


def normal(profile, apdu):
    """The normal form of an APDU of the encoder's."""
    return Writer().value(ROOTS[profile], apdu, None)


# ---- places


def walk(node, name=""):
    """Each value that may be below a node, in the order in which a line is judged: the way down to it, the name of its row, and its node."""
    yield [], name, node
    for i, row in enumerate(ALL_ROWS.get(node, [])):
        if row.presence != "LeftOut":
            inner = name if node in ALL_LISTS else NAMES[node][1][i]
            for way, row_name, found in walk(row.node, inner):
                yield [(node, i), *way], row_name, found


@cache
def all_places(profile):
    return [place for place in walk(ROOTS[profile]) if place[0]]


def ends(profile, is_wanted):
    """The first and the last place of a profile whose row's name and node are wanted, each as the way to it and its node; none where none is."""
    found = [(way, node) for way, name, node in all_places(profile) if is_wanted(name, node)]
    return [found[0], found[-1]] if found else []


def line_at(profile, way, value):
    """The line of the small APDU in which a value of JSON is at the end of the way."""
    return line_of(*body_of(ROOTS[profile], along(way, Json(value))))


def pointer_at(way, *more):
    """The pointer to the end of a way, and on by more names. The items of lists are the first ones."""
    steps = [("0" if node in ALL_LISTS else NAMES[node][1][i]) for node, i in way[1:]]
    return "".join(f"/{step}" for step in ["value", *filter(None, steps), *more])


def filled(profile, way, total):
    """The line, and the octets, of the small APDU in which the text at the end of the way makes this many octets."""
    size = total - 64
    while True:
        octets = normal(profile, along(way, ("general", "A" * size)))
        if len(octets) == total:
            before, after = line_at(profile, way, {"general": "@"}).split("@")
            return Runs([[before, 1], ["A", size], [after, 1]]), octets
        size += total - len(octets)


# ---- small lines

EXPIRED, EXPIRED_OCTETS = line_of("Expired", HEAD_VALUE), expired()
LINE_LIMIT, NORMAL_LIMIT, NESTING = 16_777_216, 1_048_576, 128
MODULE = ["module"]


def with_group(value):
    """An EXPIRED whose transaction-group-qualifier is this text of JSON."""
    return line_of("Expired", with_head({"transaction-id": {"transaction-group-qualifier": Number(value), "transaction-qualifier": {"general": "Q"}}}))


def with_version(value):
    """An EXPIRED whose protocol-version-num is this value of JSON."""
    return line_of("Expired", with_head({"protocol-version-num": value}))


def with_date(date, **time):
    """An EXPIRED of this date, and of a time where there is one."""
    return line_of("Expired", with_head({"service-date-time": {"date-time-of-this-service": {"date": date, **time}}}))


def with_extension(item):
    """An EXPIRED with an extension of this item."""
    return line_of("Expired", with_head({"expired-extensions": [{"identifier": 1, "item": item}]}))


def damaged(details):
    """A DAMAGED with these details."""
    return line_of("Damaged", with_head({"damaged-details": details}))


def with_identifier(identifier):
    """A DAMAGED whose details have this OBJECT IDENTIFIER."""
    return damaged({"document-type-id": identifier, "damaged-portion": {"complete-document": None}})


def with_amount(value):
    """A RETURNED that is insured for this."""
    return line_of("Returned", with_head({"date-returned": "20240229", "insured-for": {"monetary-value": value}}))


def returned(external):
    """A RETURNED with this EXTERNAL."""
    return line_of("Returned", with_head({"supplemental-item-description": [external], "date-returned": "20240229"}))


def message_of(apdu, *contents):
    return element(apdu, element("30", HEAD, *contents))


def of_extension(item):
    """The octets of `with_extension`."""
    return message_of("74", element("BF 31", element("30", "80 01 01", element("A2", item))))


def of_damaged(*details):
    """The octets of `damaged`."""
    return message_of("70", element("A5", *details))


def of_returned(*external):
    """The octets of `returned`."""
    return message_of("6A", element("B1", element("28", *external)), "9F 25 08 32 30 32 34 30 32 32 39")


def nested(levels):
    """An EXPIRED whose line nests this many levels deep."""
    return line_of("Expired", HEAD_VALUE, file=Number("[" * (levels - 1) + "]" * (levels - 1)))


def levels(count):
    """The octets of a NULL in SEQUENCEs, this many levels in all, in hexadecimal."""
    octets = b"\x05\x00"
    for _ in range(count - 1):
        octets = element("30", octets)
    return bytes(octets).hex()
