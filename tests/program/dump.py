#!/usr/bin/env python3
"""Compares `illcanon dump` with another writer of the dump, over spellings of random APDUs, good and changed, over the examples of
`illcanon help causes`, over a message for each number that has a name, and over a few messages that each run has.

The writer goes by the judge of judge.py, the tables and the names. Each APDU, each note, each hint and each cause has to come at least once; a
message has a note if and only if it is not in normal form; the line on standard error is that of `check`. Needs the program built.
Usage: dump.py [SEED [COUNT [PROFILE]]], PROFILE being `2`, the default, or `module`. Prints the seed, with which a run is made again.
"""
import copy
import json
import os
import random
import re
import subprocess
import sys
import tempfile
from collections import Counter
from pathlib import Path

sys.path.insert(0, str(Path(__file__).resolve().parents[1]))

from model.encoder import Speller, Writer, is_default
from model.judge import DEPTH, LIMIT, Judge, Refused, bits_of, content_value, due, missing
from refusals import Misspeller, changed
from shown import identifier_text, octets_text
from model.tables import ALL_ROWS, NAMES, NUMBER_NAMES, PROGRAM, ROOTS, TOP, profile_and_words, random_value, seed_and_count

# the types that have universal tags (X.680, table 1), from number 1 on
UNIVERSAL = (
    "BOOLEAN/INTEGER/BIT STRING/OCTET STRING/NULL/OBJECT IDENTIFIER/ObjectDescriptor/EXTERNAL/REAL/ENUMERATED/EMBEDDED PDV/UTF8String/RELATIVE-OID/TIME/"
    "/SEQUENCE/SET/NumericString/PrintableString/TeletexString/VideotexString/IA5String/UTCTime/GeneralizedTime/GraphicString/VisibleString/GeneralString/"
    "UniversalString/CHARACTER STRING/BMPString/DATE/TIME-OF-DAY/DATE-TIME/DURATION/OID-IRI/RELATIVE-OID-IRI"
).split("/")
TYPES = {("universal", number): name for number, name in enumerate(UNIVERSAL, 1) if name}
CLASSES = {"universal": "UNIVERSAL ", "application": "APPLICATION ", "context": "", "private": "PRIVATE "}
TRIED = [("universal", n) for n in range(1, 31)] + [("application", n) for n in range(31)] + [("context", n) for n in range(61)]
TEXTS = {
    "Truncated": "the input ends inside the message",
    "BadTag": "no identifier begins so, or the tag number has more than four octets",
    "BadLength": "the first length octet is FF, or 80 in a primitive element",
    "TooLong": "the message would have more than 1,048,576 octets",
    "Overrun": "the element would go past the end of an element round it",
    "TooDeep": "more than 32 elements would be open",
    "UnexpectedTag": "this tag is not expected here",
    "LeftOut": "this part is not read",
    "WrongForm": "its form, primitive or constructed, is not the one expected here",
    "Missing": "the element ends before a mandatory part",
    "BadEnd": "the second octet of an end mark is not 00",
    "BadBoolean": "the BOOLEAN does not have exactly one octet",
    "BadInteger": "the number has no octet, or one more than it needs",
    "IntegerTooLong": "the number has more than eight octets",
    "BadText": "an octet is not in the alphabet of the string",
    "BadDate": "it is not eight digits of a day that exists",
    "BadTime": "it is not six digits of a time of day",
    "TrailingBytes": "octets follow the message",
    "NormalTooLong": "the normal form would have more than 1,048,576 octets",
    "BadNull": "the NULL has octets",
    "BadOid": "the identifier has no octet, one more than it needs, or no end",
    "BadBits": "the first octet is not the number of unused bits",
}
# as many octets a header has at most
MOST_HEADER = 132
# the clauses of the causes, by the standards
OUR_LIMIT = "limit of illcanon"
CLAUSES = {
    "Truncated": "X.690, 8.1.1",
    "BadTag": f"X.690, 8.1.2, or {OUR_LIMIT}",
    "BadLength": "X.690, 8.1.3.2 and 8.1.3.5",
    "TooLong": OUR_LIMIT,
    "Overrun": "X.690, 8.1.3.3",
    "TooDeep": OUR_LIMIT,
    "UnexpectedTag": "X.690, 8.9.2, 8.10.2, 8.13 and 8.14, with the types of ISO 10161-1",
    "LeftOut": OUR_LIMIT,
    "WrongForm": "X.690, 8.2.1, 8.3.1, 8.8.1, 8.9.1, 8.10.1, 8.14 and 8.19.1",
    "Missing": "X.690, 8.9.3 and 8.14, with the types of ISO 10161-1",
    "BadEnd": "X.690, 8.1.5",
    "BadBoolean": "X.690, 8.2.1",
    "BadInteger": "X.690, 8.3.1 and 8.3.2",
    "IntegerTooLong": OUR_LIMIT,
    "BadText": "X.690, 8.23, and X.680, 41",
    "BadDate": "ISO 10161-1: ISO-Date ::= VisibleString -- conforms to ISO 8601, length = 8, fixed, YYYYMMDD",
    "BadTime": "ISO 10161-1: ISO-Time ::= VisibleString -- conforms to ISO 8601, length = 6, fixed, HHMMSS",
    "TrailingBytes": OUR_LIMIT,
    "NormalTooLong": OUR_LIMIT,
    "BadNull": "X.690, 8.8.2",
    "BadOid": "X.690, 8.19.2",
    "BadBits": "X.690, 8.6.2",
}
NO_MESSAGE = "    no ILL message begins here\n"
TEXT = "    it looks like text\n"
MARKED = "    --profile module reads what is marked as not read\n"
READS_PART = "    --profile module reads this part\n"
OTHER_TAGS = "    --profile module has other tags here\n"
ESCAPES = "    --profile module reads escape sequences\n"
# the hints that each run has to meet
HINTS = {"2": [NO_MESSAGE, TEXT, MARKED, READS_PART, OTHER_TAGS, ESCAPES], "module": [NO_MESSAGE, TEXT]}
# a version, an identifier and a time, with which most APDUs begin
HEAD = "800102a10aa1031b0147a2031b0151a20ca00a80083230323430323239"
# Messages that each run has, since random ones seldom are like these. Profile 2 refuses them.
FIXED = [
    # a text
    b"From: library\r\n".hex(),
    # tag numbers of five octets, and others that begin with ones
    "ffffffffff",
    "7405ffffffffff",
    "7405ff80ffffff",
    "7404ffffffff",
    "7405ffffffff7f",
    "74051f80808001",
    # units per medium, a reason and a delivery service as the module has them, and both reasons of a Will-Supply
    f"63323030{HEAD}9b0101bd0ea80c300aa0030a0101a103020101",
    f"63323030{HEAD}9b0101bd0ea80c300a800101a10302010190019a",
    f"642f302d{HEAD}9f1f0105bf2009a5073005a0030a0101",
    f"642f302d{HEAD}9f1f0105bf2009a50730050500800101",
    f"64353033{HEAD}9f1f0101bf200fa10d300b800101a7061b04706f7374",
    f"642f302d{HEAD}9f1f0101bf2009a10730058001010500",
    # the escape sequences of a GeneralString
    "7420301e800102a10ba1041b021b47a2031b0151a20ca00a80083230323430323239",
    "7420301e800102a10ba1041b020e47a2031b0151a20ca00a80083230323430323239",
    # rows and APDUs that profile 2 leaves out
    f"74223020{HEAD}bf3100",
    # bits of which unused ones are not 0, and an extension with a default that is written
    f"6a353033{HEAD}b1092807020105820203ff9f25083230323430323239",
    f"74343032{HEAD}bf31123010800101810100a2803080050000000000",
    "7300",
    "0500",
    # an OBJECT IDENTIFIER with a number of more than 63 bits
    f"6a3f303d{HEAD}b1132811060b69ffffffffffffffffff7f820203f89f25083230323430323239",
    # a length that none has, of a part that has a name; and an element after it
    "74193017800102a104a1ff1b47a20ca00a80083230323430323239",
    # where a delivery service is due, as one of many parts
    f"6121301f{HEAD}0500",
]
# Messages that each run has, and both profiles accept: each octet that is quoted in its own way, TRUE as 01, each form of a length and a
# string, and each default.
GOOD = [
    "74243022800102a10fa1081b067e5c22007fe9a2031b0151a20ca00a80083230323430323239",
    f"65233021{HEAD}9f230101",
    "7481253080800102a10aa1031b0147a2031b0151a210a00ea00c0404323032340404303232390000",
    f"741d{HEAD}",
    # each default, written
    f"61533051{HEAD}850101a900ab0c800100810100820101830102ac038201038e0103b000b40f800100810100820100830100850102950100960100",
]
LEVELS_TEXT = "a value of an open type would have more than 20 levels"
# the causes that only the module profile has
MODULE = {"BadNull", "BadOid", "BadBits"}
NOTES = ["indefinite", "length in", "in segments", "segment", "default written", "TRUE as", "without inner SEQUENCE"]
MODULE_NOTES = ["unused bits are not 0"]
# the nodes of profile 2 in which the module has other tags, or a row more
RETAGGED = {"UnitsPerMedium", "WillSupply", "Conditional"}
TAG_ONLY = {"UnexpectedTag", "LeftOut", "WrongForm", "TooDeep"}
HEADER_ONLY = {"BadLength", "Overrun", "TooLong"}


def apdu_begun(octets):
    """The name of the APDU that octets begin: by its identifier in either form, and by what begins in it, as far as there are octets."""
    names = NAMES[ROOTS["module"]][1]
    first, number = octets[0], octets[0] & 31
    size = 1 if len(octets) < 2 or octets[1] <= 0x80 else 1 + (octets[1] & 0x7F)
    begins = octets[1 + size : 2 + size] in (b"", b"\x10", b"\x30", b"\x80", b"\xa0", b"\0")
    return names[number - 1] if first >> 6 == 1 and 0 < number <= len(names) and begins else None


def hexed(octets):
    return bytes(octets).hex(" ")


def quoted(octets):
    escapes = {ord(c): "\\" + c for c in '"\\'}
    return '"' + "".join(escapes.get(o, chr(o) if 0x20 <= o <= 0x7E else f"\\x{o:02x}") for o in octets) + '"'


def tag_text(tag):
    """A tag, and the type that has it where it is a universal one."""
    return f"[{CLASSES[tag[0]]}{tag[1]}] {TYPES.get(tag, '')}".rstrip()


def number_text(row, number):
    """A number, and in brackets its name in a row, if it has one."""
    name = NUMBER_NAMES.get(row, {}).get(number)
    return f"{number} ({name})" if name else str(number)


def bits_text(content):
    """What a primitive BIT STRING has, its unused bits as they are written. A segment that has no bits by X.690, 8.6 is shown in hexadecimal."""
    if bits_of(content) is None:
        return hexed(content)
    return f"bits {8 * len(content[1:]) - content[0]} {content[1:].hex()}".rstrip()


def has_unused_bits_set(content):
    return bits_of(content) is not None and bits_of(content).octets != content[1:]


# what only the module profile has
MODULE_VALUES = {
    "Null": lambda content: "NULL",
    "ObjectIdentifier": identifier_text,
    "OctetString": octets_text,
    "ObjectDescriptor": quoted,
    "Any": octets_text,
}


class Dumper(Judge):
    """Judges a message, and keeps a line for each element."""

    def __init__(self, octets, profile):
        super().__init__(octets, profile)
        self.lines, self.labels, self.counts = [], [], []
        # the name of an element that is refused, where it is one of the tables
        self.refused = None
        # the type of a string whose octets are refused
        self.text_node = None

    def round(self):
        return self.path[-1] if self.path else None

    def due(self, tag):
        """What a tag begins here, with nothing changed."""
        return due(copy.deepcopy(self.path), tag, self.profile)

    def label(self, element, tag):
        """The name of an element, and whether it is one of the tables."""
        inner = self.round()
        if inner is None:
            return NAMES[ROOTS[self.profile]][1][element.chosen[0] if element.chosen else element.part[1]], True
        if element.kind == "foreign":
            return tag_text(tag), False
        if element.kind == "segment":
            return "BIT STRING" if element.node == "BitString" else "OCTET STRING", False
        if inner.kind == "list":
            return f"{NAMES[inner.node][1][0]}[{self.counts[-1]}]", True
        if element.row is not None:
            name = NAMES[inner.node][1][element.row]
            if element.chosen:
                name += "." + NAMES[ALL_ROWS[inner.node][element.row].node][1][element.chosen[0]]
            elif element.kind == "left out" and element.part[0] != inner.node:
                name += "." + NAMES[element.part[0]][1][element.part[1]]
            return name, True
        if element.chosen and inner.node != "TaggedExternal":
            return NAMES[inner.node][1][element.chosen[0]], True
        if element.kind == "left out":
            return NAMES[element.part[0]][1][element.part[1]], True
        return TYPES[tag], False

    def element(self, place):
        known, tag, element, begun = None, None, None, place
        depth, inner = len(self.path), self.round()
        try:
            tag, constructed, begun = self.identifier(place)
            element = self.due(tag)
            known = element and self.label(element, tag)
            size, body = self.length(begun, constructed, place)
        except Refused:
            size = body = None
        try:
            after = super().element(place)
        except Refused as fault:
            if fault.cause == "BadText" and not constructed:
                self.text_node = element.node
            if fault.cause == "Truncated" and body is not None and element and body <= len(self.octets):
                notes = self.length_notes(begun, body, size) + ["cut short"]
                self.lines.append([place, depth, self.octets[place:body], known[0], "", notes, None])
            elif fault.cause not in ("Truncated", "BadTag") and known and known[1]:
                self.labels.append(known[0])
                self.refused = known[0]
            raise
        if inner:
            self.counts[-1] += 1
        notes = self.length_notes(begun, body, size)
        value, after_header = "", None
        if constructed:
            self.labels.append(known[0] if known[1] else None)
            self.counts.append(0)
            if element.kind == "loose":
                after_header = True if size == 0 else body
            elif element.kind in ("string", "segment"):
                notes.append("in segments" if element.kind == "string" else "segment")
        else:
            content = self.octets[body : body + size]
            value = " = " + self.value_text(element, content)
            if element.kind == "segment":
                notes.append("segment")
            if element.node == "Boolean" and content not in (b"\0", b"\xff"):
                notes.append(f"TRUE as {hexed(content)}")
            if element.node == "BitString" and has_unused_bits_set(content):
                notes.append("unused bits are not 0")
            if element.row is not None and element.kind == "leaf" and is_default(content_value(element.node, content), ALL_ROWS[inner.node][element.row]):
                notes.append("default written")
        self.lines.append([place, depth, self.octets[place:body], known[0], value, notes, after_header])
        return after

    def length_notes(self, begun, body, size):
        if size is None:
            return ["indefinite"]
        least, count = len(Writer().length(size)), body - begun
        return [f"length in {count} octets; {least} {'is' if least == 1 else 'are'} enough"] if count > least else []

    def value_text(self, element, content):
        if element.node == "BitString":
            return bits_text(content)
        if element.kind == "segment":
            return quoted(content)
        if element.node in MODULE_VALUES:
            return MODULE_VALUES[element.node](content)
        value = content_value(element.node, content)
        if isinstance(value, bool):
            return "TRUE" if value else "FALSE"
        if isinstance(value, int):
            return number_text(self.row_of(element), value)
        return content.decode() if element.node in ("IsoDate", "IsoTime") else quoted(content)

    def row_of(self, element):
        """The name of the row that a number stands in. An item of a list and what a row's own tag is round stand in that row."""
        inner = self.round()
        if element.chosen:
            return NAMES[inner.node if element.row is None else ALL_ROWS[inner.node][element.row].node][1][element.chosen[0]]
        if element.row is None:
            inner, element = self.path[-2], inner
        return NAMES[inner.node][1][element.row]

    def close(self, place):
        start, ends = self.path[-1].start, self.path[-1].end
        self.text_node = self.path[-1].node
        try:
            super().close(place)
        except Refused as fault:
            # A string in segments is refused where it begins.
            if fault.at == start:
                self.refused = self.labels[-1]
            raise
        self.labels.pop()
        self.counts.pop()
        if ends is None:
            self.lines.append([place, len(self.path), b"\0\0", "end mark", "", [], None])

    def text(self, stop):
        """The lines of the elements that begin before an offset."""
        for place, depth, header, name, value, notes, inside in self.lines:
            if place >= stop:
                continue
            if inside is True or inside is not None and inside < stop and self.octets[inside] != 0x30:
                notes = notes + ["without inner SEQUENCE"]
            noted = f"  ({', '.join(notes)})" if notes else ""
            yield f"{place:>7}  {'  ' * depth}{hexed(header)}  {name}{value}{noted}\n"

    def found(self, fault):
        """What is at the place of a fault."""
        if fault.cause == "Truncated":
            return "the end of the input"
        if fault.cause == "Missing":
            return "the end of the element"
        if fault.cause == "BadEnd":
            return hexed(self.octets[fault.at : fault.at + 2])
        rest = self.octets[fault.at : self.bound() if self.bound() is not None else LIMIT]
        if not rest:
            return "nothing before the end"
        tag = constructed = None
        begun = fault.at
        try:
            tag, constructed, begun = self.identifier(fault.at)
            size, body = self.length(begun, constructed, fault.at)
        except Refused as other:
            if tag is None:
                # Up to the octet that begins no identifier.
                count = 1 if rest[0] == 0 else next((i for i in range(2, 6) if i > len(rest) or not self.may_begin(rest[:i])), len(rest))
                return hexed(rest[: min(count, len(rest))])
            size, body = None, begun + 1 if other.cause == "BadLength" else fault.at + len(rest)
        if fault.cause in TAG_ONLY:
            end = begun
        elif fault.cause in HEADER_ONLY or constructed:
            end = body
        else:
            end = body + size
        return f"{tag_text(tag)} {'constructed' if constructed else 'primitive'}: {hexed(self.octets[fault.at : end])}"

    @staticmethod
    def may_begin(octets):
        """Whether an identifier may begin with more than one octet, these."""
        try:
            Judge(octets).identifier(0)
        except Refused as fault:
            return fault.cause == "Truncated"
        return True

    def in_tree(self):
        """Whether the place is in a foreign tree, or where one is to begin."""
        return bool(self.path) and self.round().node == "Any" and (self.round().kind == "foreign" or not self.round().position)

    def refusal(self, fault):
        part = f" {fault.part_name()}" if fault.part else ""
        text = LEVELS_TEXT if fault.cause == "TooDeep" and self.in_tree() else TEXTS[fault.cause]
        yield f"refused at {fault.at}: {fault.cause}{part}\n    {text}\n"
        if not self.is_begun():
            yield NO_MESSAGE
            if all(0x20 <= octet <= 0x7E or octet in b"\t\n\r" for octet in self.octets[:64]):
                yield TEXT
        yield f"    clause {self.clause(fault)}\n"
        if fault.cause == "NormalTooLong":
            return
        place = self.place(fault)
        if self.is_begun():
            yield f"    path {place.get('path', 'none')}\n"
        yield f"    found {place['found']}\n"
        due = place.get("due", [])
        yield from (f"    due {text}\n" for text in due)
        if any(text.endswith(" (not read)") for text in due):
            yield MARKED
        if self.is_begun():
            yield from self.hint(fault)
        yield from self.unjudged(fault)

    def place(self, fault):
        """The place of a fault in words, as lines of JSON have it."""
        if fault.cause == "NormalTooLong":
            return {}
        if not self.is_begun():
            return {"found": self.found(fault)}
        path, due = ".".join(label for label in self.labels if label), list(self.due_texts(fault))
        return {**({"path": path} if path else {}), "found": self.found(fault), **({"due": due} if due else {})}

    def due_texts(self, fault):
        """What was due."""
        if fault.cause == "WrongForm":
            tag, constructed, begun = self.identifier(fault.at)
            other = [self.octets[fault.at] ^ 0x20, *self.octets[fault.at + 1 : begun]]
            yield f"{tag_text(tag)} {'primitive' if constructed else 'constructed'}: {hexed(other)}"
        if fault.cause not in ("UnexpectedTag", "Missing"):
            return
        if self.in_tree():
            yield "one element of any tag"
            return
        for tag in TRIED:
            element = self.due(tag)
            if element:
                label = self.label(element, tag)[0]
                named = tag_text(tag) if label == TYPES.get(tag) else f"{tag_text(tag)} {label}"
                yield f"{named}{' (not read)' if element.kind == 'left out' else ''}"
        if self.path and not missing(self.path[-1]):
            yield "the end of the element"

    def is_begun(self):
        """Whether an APDU begins here, by the octets up to the end of the outermost element, as far as it is known."""
        return apdu_begun(self.octets[: framed(self.octets)]) is not None

    def clause(self, fault):
        """The clause that the cause enforces; of BadTag it is known which one."""
        start = self.octets[fault.at : fault.at + 5]
        has_long_number = len(start) == 5 and start[0] & 31 == 31 and start[1] != 0x80 and min(start[1:]) >= 0x80
        if fault.cause == "BadTag":
            return OUR_LIMIT if has_long_number else "X.690, 8.1.2"
        return CLAUSES[fault.cause]

    def hint(self, fault):
        """That what is refused is not wrong by the module of ISO 10161-1, or may not be."""
        if self.profile == "module":
            return
        if fault.cause == "LeftOut":
            yield READS_PART
        elif fault.cause in ("WrongForm", "UnexpectedTag") and self.path and self.round().node in RETAGGED:
            yield OTHER_TAGS
        elif fault.cause == "BadText" and self.text_node == "General":
            yield ESCAPES

    def unjudged(self, fault):
        """The elements from a fault on, by identifiers and lengths alone, up to the end of the outermost one."""
        octets = self.octets[: min(framed(self.octets), LIMIT)]
        ends = [element.end for element in self.path if element.start < fault.at]
        place = fault.at
        while place < len(octets):
            # One whose end mark is missing ends with the element round it.
            while any(end is not None and end <= place for end in ends):
                ends.pop()
            bound = min([len(octets), *(end for end in ends if end is not None)])
            start = octets[place : min(bound, place + MOST_HEADER)]
            if ends and ends[-1] is None and start[:2] == b"\0\0":
                ends.pop()
                yield f"{place:>7}  {'  ' * len(ends)}00 00  end mark  (not judged)\n"
                place += 2
                continue
            line = f"{place:>7}  {'  ' * len(ends)}"
            try:
                tag, constructed, begun = Judge(start).identifier(0)
                size, body = Judge(start).length(begun, constructed, 0)
            except Refused:
                yield f"{line}{hexed(octets[place:bound])}  octets  (not judged)\n"
                place, self.refused = bound, None
                continue
            place += body
            end = bound if size is None else min(bound, place + size)
            note = "not judged" if size is None or place + size == end else "cut short, not judged"
            name, self.refused = self.is_begun() and self.refused or tag_text(tag), None
            line = f"{line}{hexed(start[:body])}  {name}"
            if constructed and len(ends) < DEPTH:
                ends.append(None if size is None else end)
                yield f"{line}  ({note})\n"
            else:
                yield f"{line} = {octets_text(octets[place:end])}  ({note})\n"
                place = end


def framed(octets):
    """How many octets are taken of an element: up to its end by identifiers and lengths alone, or to where that can't be known."""
    place, marks, count = 0, 0, len(octets)
    while place < count:
        first = octets[place]
        place += 1
        if first == 0:
            if not marks or place == count or octets[place]:
                return min(count, place + (marks > 0))
            place, marks = place + 1, marks - 1
        else:
            if first & 31 == 31:
                while place < count and octets[place] & 0x80:
                    place += 1
                place += 1
            if place >= count:
                return count
            length = octets[place]
            place += 1
            if length == 0x80 and first & 0x20:
                marks += 1
                continue
            if length in (0x80, 0xFF):
                return place
            if length > 0x80:
                size = length & 0x7F
                length = int.from_bytes(octets[place : place + size], "big")
                place += size
                if place > count or length > 4_294_967_294:
                    return min(place, count)
            place += length
        if not marks:
            return min(place, count)
    return count


def dump(octets, profile, name=None):
    """What is written for the messages of a file, and the line on standard error."""
    label, text, errors, number = f"{name}: " if name else "", "", "", 0
    while octets:
        number += 1
        dumper = Dumper(octets, profile)
        try:
            apdu, size = dumper.message()
        except Refused as fault:
            text += f"{label}message {number}: refused\n" + "".join(dumper.text(fault.at)) + "".join(dumper.refusal(fault))
            line = fault.line(number)
            return text, line.replace("illcanon: ", f"illcanon: {label}", 1)
        normal = Writer().value(ROOTS[profile], apdu, None)
        end = "normal" if normal == octets[:size] else f"not normal, normal form {len(normal)} octets"
        text += f"{label}message {number}: {NAMES[ROOTS[profile]][1][apdu[0]]}, {size} octets, {end}\n" + "".join(dumper.text(size))
        octets = octets[size:]
    return text, errors


def first_cause(octets, profile):
    """The cause of the first message of a file that is refused."""
    while octets:
        try:
            _, size = Judge(octets, profile).message()
        except Refused as fault:
            return fault.cause
        octets = octets[size:]
    return None


def inputs(chance, count, root):
    """Files with one or two messages, good and changed."""
    apdus = [i for i, row in enumerate(ALL_ROWS[root]) if row.presence != "LeftOut"]
    for number in range(count):
        row = apdus[number % len(apdus)]
        apdu = row, random_value(chance, ALL_ROWS[root][row].node)
        writer = Writer() if chance.random() < 0.15 else Speller(chance)
        octets = writer.value(root, apdu, None)
        if root == ROOTS["module"] and chance.random() < 0.3:
            octets = Misspeller(chance).value(root, apdu, None)
        elif chance.random() < 0.5:
            octets = changed(chance, octets)
        if chance.random() < 0.2:
            octets += Speller(chance).value(root, random_value(chance, root), None)
        if chance.random() < 0.2:
            octets = octets[: chance.randrange(len(octets) + 1)]
        yield octets


def named(profile):
    """A message for each number that has a name in a row: those of the test vectors of lines of JSON."""
    groups = json.loads((TOP / "vectors/json.json").read_text())["groups"]
    return [
        vector["normal"]
        for group in groups
        if group["rule"]["name"] == "numbers with names"
        for vector in group["vectors"]
        if re.search("-by-both(-module)?$", vector["id"]) and profile in vector["profiles"]
    ]


def examples():
    """The examples of `illcanon help causes`: each cause with its octets."""
    text = subprocess.run([PROGRAM, "help", "causes"], capture_output=True, text=True, check=True).stdout
    for cause, meaning, lines in re.findall(r"^([A-Z]\w+) +(.*)\n((?:^    .*\n?)+)", text, re.M):
        if meaning != TEXTS.get(cause):
            sys.exit(f"dump.py: help causes says of {cause}: {meaning}")
        clause, lines = re.fullmatch(r" {16}\((.*?)\)\n(    (?! ).*)", lines, re.S).groups()
        if re.sub(r"\n +", " ", clause) != CLAUSES[cause]:
            sys.exit(f"dump.py: help causes has for {cause} the clause {clause}")
        lines = [line.strip() for line in lines.splitlines()]
        if lines[0].startswith("$ "):
            script = "\n".join(lines)[2:]
            octets = subprocess.run(["sh", "-c", script], capture_output=True, check=True).stdout
        else:
            octets = bytes.fromhex("".join(lines))
        yield cause, octets


def compare(folder, names, seed, profile, words):
    """The program and the writer over files. Returns the text."""
    wanted = {name: dump((folder / name).read_bytes(), profile, name) for name in names}
    done = subprocess.run([PROGRAM, "dump", *words, *names], cwd=folder, capture_output=True, check=False)
    text = "".join(wanted[name][0] for name in names)
    errors = "".join(wanted[name][1] for name in names)
    found = done.stdout.decode("latin-1")
    if found != text:
        pairs = zip(found.splitlines() + [""], text.splitlines() + [""])
        number = next((i for i, (one, other) in enumerate(pairs) if one != other), -1)
        before = [line for line in text.splitlines()[: number + 1] if ": message" in line][-1:]
        sys.exit(f"dump.py: seed {seed}, line {number} after {before}:\n  {found.splitlines()[number:number + 1]}\n  {text.splitlines()[number:number + 1]}")
    if done.stderr.decode() != errors or done.returncode != (1 if errors else 0):
        sys.exit(f"dump.py: seed {seed}: status {done.returncode}, {done.stderr.decode()}\nwanted {errors}")
    checked = subprocess.run([PROGRAM, "check", *words, *names], cwd=folder, capture_output=True, check=False)
    if checked.stderr != done.stderr or checked.stdout.decode() != "".join(line + "\n" for line in text.splitlines() if re.search(r": message \d+: .*normal", line)):
        sys.exit(f"dump.py: seed {seed}: check says something else")
    return text


def check_notes(text):
    """A message has a note exactly if it is not normal."""
    for message in re.split(r"^(?=[\w-]+: message )", text, flags=re.M)[1:]:
        head, *rest = message.splitlines()
        noted = any(re.search(rf"  \((.*, )?{note}[^\"]*\)$", line) for line in rest for note in NOTES + MODULE_NOTES)
        if not head.endswith("refused") and noted != ("not normal" in head):
            sys.exit(f"dump.py: notes and normal form differ:\n{message}")


def compare_examples(folder, profile):
    """The examples of each cause give it. Returns the names of those that `dump` is compared over."""
    causes, names = Counter(), []
    for cause, octets in examples():
        causes[cause] += 1
        if cause == "TrailingBytes":
            done = subprocess.run([PROGRAM, "check", "--lines", "-"], input=octets.hex().encode() + b"\n", capture_output=True, check=False)
            if f": {cause}" not in done.stdout.decode():
                sys.exit(f"dump.py: the example of {cause} gives {done.stdout}")
            continue
        if cause not in MODULE or profile == "module":
            names.append(f"example-{cause}-{causes[cause]}")
            (folder / names[-1]).write_bytes(octets)
        if cause != first_cause(octets, "module" if cause in MODULE else "2"):
            sys.exit(f"dump.py: the example of {cause} gives another cause")
    for cause in TEXTS:
        if not causes[cause]:
            sys.exit(f"dump.py: no example of {cause}")
    return names


def compare_hexadecimal(folder, names, seed, profile, words):
    """The same from hexadecimal, of a file without a fault."""
    octets = next(octets for octets in ((folder / name).read_bytes() for name in names) if "refused" not in dump(octets, profile)[0])
    done = subprocess.run([PROGRAM, "dump", *words, "--hex", "-"], input=octets.hex().encode(), capture_output=True, check=False)
    if done.stdout.decode("latin-1") != dump(octets, profile)[0]:
        sys.exit(f"dump.py: seed {seed}: --hex gives something else")


def main():
    seed, count = seed_and_count()
    profile, words = profile_and_words()
    chance = random.Random(seed)
    with tempfile.TemporaryDirectory() as place:
        folder = Path(place)
        names = []
        for number, octets in enumerate(inputs(chance, min(count, 400), ROOTS[profile])):
            names.append(f"f{number}")
            (folder / names[-1]).write_bytes(octets)
        for kind, messages in ("fixed", FIXED), ("good", GOOD), ("named", named(profile)):
            for number, digits in enumerate(messages):
                names.append(f"{kind}-{number}")
                (folder / names[-1]).write_bytes(bytes.fromhex(digits))
        names += compare_examples(folder, profile)
        text = compare(folder, names, seed, profile, words)
        check_notes(text)
        compare_hexadecimal(folder, names, seed, profile, words)
    for note in NOTES + (MODULE_NOTES if profile == "module" else []):
        if not re.search(rf"  \((.*, )?{note}", text):
            sys.exit(f"dump.py: seed {seed}: no message has the note {note}")
    for hint in HINTS[profile]:
        if hint not in text:
            sys.exit(f"dump.py: seed {seed}: no message has the hint {hint.strip()}")
    for number, name in {pair for numbers in NUMBER_NAMES.values() for pair in numbers.items()}:
        if profile == "module" and not re.search(rf" = {number} \({name}\)(  \(default written\))?\n", text):
            sys.exit(f"dump.py: seed {seed}: no message has the number {number} ({name})")
    for number, digits in enumerate(FIXED):
        if profile == "2" and f"fixed-{number}: message 1: refused\n" not in text:
            sys.exit(f"dump.py: seed {seed}: {digits} is not refused")
    if re.search(r"^good-\d+: message 1: refused", text, re.M):
        sys.exit(f"dump.py: seed {seed}: a good message is refused")
    kinds = Counter(re.findall(r"^refused at \d+: (\w+)", text, re.M))
    lines = text.count("\n")
    print(f"seed {seed}, profile {profile}: {len(names)} files, {lines} lines, all right;", ", ".join(f"{cause} {times}" for cause, times in kinds.most_common()))


if __name__ == "__main__":
    main()
