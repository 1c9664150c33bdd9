"""A judge by the rules of X.690: the APDU that octets spell, or the one fault for which they are refused.

These are the rules once more, written by who knew the crates, and no judge from outside: the tables and names are those of crates/ill_schema/src,
the alphabets those of Profile.antt, the order of the faults that of docs/DEFINITIONS.md.
"""
import datetime
import re

from .encoder import Writer
from .tables import ALL_LISTS, ALL_ROWS, CHOICES, LEAVES, LEVELS, NAMES, NULL, ROOTS, Bits, Tree, default_of

LIMIT = 1_048_576
DEPTH = 32
SEGMENT = ("universal", 4)
BIT_SEGMENT = ("universal", 3)
SEQUENCE = ("universal", 16)
STRING_TAGS = {("universal", 27): "General", ("universal", 26): "Visible"}
STRINGS = {"IsoDate", "IsoTime", "PrintableString", "OctetString", "BitString", "ObjectDescriptor"}
SHIFTS = b"\x0e\x0f\x1b"
LETTERS = "ABCDEFGHIJKLMNOPQRSTUVWXYZabcdefghijklmnopqrstuvwxyz0123456789 '()+,-./:=?"


class Refused(Exception):
    """A fault: its cause, its offset, and the part that it names."""

    def __init__(self, cause, at, part=None):
        super().__init__(cause)
        self.cause, self.at, self.part = cause, at, part

    def part_name(self):
        """The name of the part, or the empty text."""
        if not self.part:
            return ""
        node, row = self.part
        return f"{NAMES[node][0]}.{NAMES[node][1][row]}"

    def line(self, message):
        part = f" {self.part_name()}" if self.part else ""
        return f"illcanon: refused at {self.at} in message {message}: {self.cause}{part}\n"


class Element:
    """What a tag begins; where it is open, also what came in it."""

    def __init__(self, kind, node=None, part=None):
        self.kind, self.node, self.part = kind, node, part
        self.position, self.start, self.end = 0, None, None
        # alternatives of choices, outermost first, and the row of the sequence in which it is
        self.chosen, self.row = [], None
        # what came: a sequence's entries; a list's items, a string's segments or a foreign element's trees; what a wrapper is round
        self.entries, self.items, self.inner = {}, [], None
        # of an element of a foreign tree its tag, and its level, which is 1 for the root
        self.tag, self.level = None, 0

    def may_be_primitive(self):
        return self.kind in ("leaf", "string", "segment", "foreign")

    def may_be_constructed(self):
        return self.kind != "leaf"

    def content(self):
        """The content of a string in segments: their octets joined, or of bits what each of them has."""
        return self.items if self.node == "BitString" else joined(self.items)

    def value(self):
        """What it says, once it is whole."""
        if self.kind == "string":
            return content_value(self.node, self.content())
        if self.kind == "foreign":
            return Tree(self.tag, self.items)
        if self.kind in ("list", "segment"):
            return self.items
        if self.kind == "wrapper" or self.inner is not None:
            return self.inner
        return [self.entries.get(i, default_of(row)) for i, row in enumerate(ALL_ROWS[self.node])]


def own_element(node, tag):
    """What a type is by its own tag, and a choice by its alternatives'."""
    if node in CHOICES:
        for i, row in enumerate(ALL_ROWS[node]):
            element = row_element((node, i), row, tag)
            if element:
                element.chosen.insert(0, i)
                return element
        return None
    if node == "IllString":
        return Element("string", STRING_TAGS[tag]) if tag in STRING_TAGS else None
    if node == "Any":
        return foreign_element(tag, 1)
    return retagged_element(node) if tag == (SEQUENCE if node in ALL_ROWS else ("universal", LEAVES[node])) else None


def foreign_element(tag, level):
    """An element of a foreign tree, where each tag is due."""
    element = Element("foreign", "Any")
    element.tag, element.level = tag, level
    return element


def retagged_element(node):
    if node in ALL_ROWS:
        return Element("list" if node in ALL_LISTS else "sequence", node)
    return Element("string" if node in STRINGS else "leaf", node)


def row_element(part, row, tag):
    if not row.tag:
        return own_element(row.node, tag)
    if tag != row.tag:
        return None
    if row.presence == "LeftOut":
        return Element("left out", part=part)
    if row.mode == "Implicit":
        return retagged_element(row.node)
    return Element("loose" if row.mode == "ExplicitOrBare" else "wrapper", row.node, part)


def due_row(open_element, tag):
    """The row that the tag begins, if each row before it may be absent."""
    for i in range(open_element.position, len(ALL_ROWS[open_element.node])):
        row = ALL_ROWS[open_element.node][i]
        element = row_element((open_element.node, i), row, tag)
        if element:
            open_element.position = i + 1
            element.row = i
            return element
        if row.presence == "Must":
            return None
    return None


def due(path, tag, profile="2"):
    """What the tag begins in the innermost open element, None where it isn't due."""
    if not path:
        return own_element(ROOTS[profile], tag)
    inner = path[-1]
    if inner.kind in ("string", "segment"):
        return Element("segment", inner.node) if tag == (BIT_SEGMENT if inner.node == "BitString" else SEGMENT) else None
    if inner.kind == "foreign":
        return foreign_element(tag, inner.level + 1)
    if inner.kind == "list":
        return row_element((inner.node, 0), ALL_ROWS[inner.node][0], tag)
    if inner.kind == "loose" and not (inner.position == 0 and tag == SEQUENCE):
        return due_row(inner, tag)
    if inner.kind == "sequence":
        return due_row(inner, tag)
    if inner.position:
        return None
    element = own_element(inner.node, tag)
    if element:
        inner.position = len(ALL_ROWS.get(inner.node, [])) + 1
    return element


def missing(element):
    """The first mandatory part that is still due."""
    if element.kind == "wrapper":
        return None if element.position else element.part
    if element.kind in ("sequence", "loose"):
        for i in range(element.position, len(ALL_ROWS[element.node])):
            if ALL_ROWS[element.node][i].presence == "Must":
                return element.node, i
    return None


def is_day(text):
    if not re.fullmatch(rb"[0-9]{8}", text):
        return False
    year, month, day = int(text[:4]), int(text[4:6]), int(text[6:])
    try:
        datetime.date(year or 400, month, day)
    except ValueError:
        return False
    return True


def joined(content):
    """The octets of a string, whole or in segments."""
    return content if isinstance(content, bytes) else b"".join(map(joined, content))


def is_object_identifier(octets):
    """Whether the octets are whole subidentifiers, none of which begins with 80 (X.690, 8.19.2)."""
    return re.fullmatch(rb"(?:(?:[\x81-\xff][\x80-\xff]*)?[\x00-\x7f])+", octets)


def bits_of(content):
    """The bits of a BIT STRING, whole or in segments, and None where it has none. Only the last segment may have unused bits (X.690, 8.6)."""
    if isinstance(content, list):
        parts = [bits_of(segment) for segment in content]
        if None in parts or any(part.count % 8 for part in parts[:-1]):
            return None
        return Bits(sum(part.count for part in parts), b"".join(part.octets for part in parts))
    if not content or content[0] > 7 or content[0] and len(content) == 1:
        return None
    unused, size = content[0], len(content) - 1
    normal = int.from_bytes(content[1:], "big") >> unused << unused
    return Bits(8 * size - unused, normal.to_bytes(size, "big"))


def number_fault(octets):
    if not octets or len(octets) > 1 and (octets[0], octets[1] >> 7) in ((0, 0), (255, 1)):
        return "BadInteger"
    return "IntegerTooLong" if len(octets) > 8 else None


def is_time(text):
    return re.fullmatch(rb"(?:[01][0-9]|2[0-3])[0-5][0-9](?:[0-5][0-9]|60)|240000", text)


# for each leaf its fault, and what a content without it is
CONTENTS = {
    "Boolean": ("BadBoolean", lambda octets: len(octets) == 1),
    "IsoDate": ("BadDate", is_day),
    "IsoTime": ("BadTime", is_time),
    "PrintableString": ("BadText", lambda octets: all(chr(octet) in LETTERS for octet in octets)),
    "Visible": ("BadText", lambda octets: all(0x20 <= octet <= 0x7E for octet in octets)),
    "General": ("BadText", lambda octets: not any(shift in octets for shift in SHIFTS)),
    "Null": ("BadNull", lambda octets: octets == b""),
    "ObjectIdentifier": ("BadOid", is_object_identifier),
    "BitString": ("BadBits", lambda content: bits_of(content) is not None),
}


def content_fault(node, content, profile="2"):
    """The fault of a content, or None."""
    if node in ("Integer", "Enumerated"):
        return number_fault(content)
    if node in ("OctetString", "ObjectDescriptor") or node == "General" and profile == "module":
        return None
    fault, holds = CONTENTS[node]
    return None if holds(content) else fault


def content_value(node, content):
    """The value of a content without a fault."""
    if node == "Boolean":
        return content != b"\0"
    if node in ("Integer", "Enumerated"):
        return int.from_bytes(content, "big", signed=True)
    if node == "Null":
        return NULL
    if node == "BitString":
        return bits_of(content)
    if node in ("ObjectIdentifier", "OctetString"):
        return content
    text = content.decode("latin-1")
    return (node.lower(), text) if node in ("General", "Visible") else text


class Judge:
    """Reads one message in a profile, and raises its fault."""

    def __init__(self, octets, profile="2"):
        self.octets, self.profile, self.path, self.apdu = octets, profile, [], None
        # the end of the innermost definite element, outside of all and in each that is open
        self.bounds = [None]

    def message(self):
        """The APDU and the octets of the message."""
        size = self.size()
        if len(Writer().value(ROOTS[self.profile], self.apdu, None)) > LIMIT:
            raise Refused("NormalTooLong", 0)
        return self.apdu, size

    def bound(self):
        return self.bounds[-1]

    def octet(self, i, place):
        """The octet at i, which is needed at the place."""
        if i == self.bound():
            raise Refused("Overrun", place)
        if self.bound() is None and i == LIMIT:
            raise Refused("TooLong", place)
        if i == len(self.octets):
            raise Refused("Truncated", i)
        return self.octets[i]

    def size(self):
        """The octets of the message, its normal form of whatever size."""
        place = 0
        while True:
            inner = self.path[-1] if self.path else None
            if inner and inner.end == place:
                self.close(place)
            elif inner and inner.end is None and self.octet(place, place) == 0:
                if self.octet(place + 1, place) != 0:
                    raise Refused("BadEnd", place)
                self.close(place)
                place += 2
            else:
                place = self.element(place)
            if not self.path:
                return place

    def close(self, place):
        inner = self.path[-1]
        if missing(inner):
            raise Refused("Missing", place, missing(inner))
        if inner.kind == "string":
            fault = content_fault(inner.node, inner.content(), self.profile)
            if fault:
                raise Refused(fault, inner.start)
        self.path.pop()
        self.bounds.pop()
        self.hand_on(inner, inner.value())

    def hand_on(self, element, value):
        """Hands what an element says to the one round it."""
        for i in reversed(element.chosen):
            value = i, value
        if not self.path:
            self.apdu = value
        elif self.path[-1].kind in ("list", "string", "segment", "foreign"):
            self.path[-1].items.append(value)
        elif element.row is None:
            self.path[-1].inner = value
        else:
            self.path[-1].entries[element.row] = value

    def element(self, place):
        tag, constructed, at = self.identifier(place)
        if len(self.path) >= DEPTH or self.path and self.path[-1].level >= LEVELS:
            raise Refused("TooDeep", place)
        element = due(self.path, tag, self.profile)
        if not element:
            raise Refused("UnexpectedTag", place)
        if element.kind == "left out":
            raise Refused("LeftOut", place, element.part)
        if not (element.may_be_constructed() if constructed else element.may_be_primitive()):
            raise Refused("WrongForm", place)
        size, at = self.length(at, constructed, place)
        if size is not None and at + size > (self.bound() if self.bound() is not None else LIMIT):
            raise Refused("Overrun" if self.bound() is not None else "TooLong", place)
        if constructed:
            element.start, element.end = place, None if size is None else at + size
            self.path.append(element)
            self.bounds.append(self.bound() if element.end is None else element.end)
            return at
        if at + size > len(self.octets):
            raise Refused("Truncated", len(self.octets))
        self.hand_on(element, self.judged(element, self.octets[at : at + size], place))
        return at + size

    def judged(self, element, content, place):
        """What a primitive element says."""
        if element.kind == "segment":
            return content
        if element.kind == "foreign":
            return Tree(element.tag, content)
        fault = content_fault(element.node, content, self.profile)
        if fault:
            raise Refused(fault, place)
        return content_value(element.node, content)

    def identifier(self, place):
        first = self.octet(place, place)
        name = ["universal", "application", "context", "private"][first >> 6]
        if first == 0:
            raise Refused("BadTag", place)
        if first & 0x1F != 0x1F:
            return (name, first & 0x1F), bool(first & 0x20), place + 1
        number = 0
        for count in range(1, 5):
            octet = self.octet(place + count, place)
            number = number << 7 | octet & 0x7F
            if count == 1 and (octet == 0x80 or octet < 0x1F) or count == 4 and octet & 0x80:
                raise Refused("BadTag", place)
            if not octet & 0x80:
                return (name, number), bool(first & 0x20), place + count + 1
        raise AssertionError

    def length(self, at, constructed, place):
        first = self.octet(at, place)
        if first == 0xFF or first == 0x80 and not constructed:
            raise Refused("BadLength", place)
        if first == 0x80:
            return None, at + 1
        if first < 0x80:
            return first, at + 1
        octets = [self.octet(at + i, place) for i in range(1, first - 0x7F)]
        return int.from_bytes(octets, "big"), at + first - 0x7F


def message(octets, profile="2"):
    """The APDU that the octets spell, all of them."""
    apdu, size = Judge(octets, profile).message()
    if size < len(octets):
        raise Refused("TrailingBytes", size)
    return apdu
