"""What a line of JSON is built into: the octets of the normal form, or its one fault, a cause and a JSON pointer."""
import json
import re

from .encoder import Writer
from .tables import NUMBER_NAMES, ROOTS

LIMIT = 1048576          # octets of a normal form
LINE_LIMIT = 16777216    # octets of a line
NESTING = 128            # levels of objects and lists
LEVELS = 20              # levels of a foreign tree
HEAD = {"profile", "file", "number", "offset", "octets", "normal"}       # all but the profile say where a message stood, and may hold anything
UNIVERSAL = {"Boolean": 1, "Integer": 2, "BitString": 3, "OctetString": 4, "Null": 5, "ObjectIdentifier": 6, "ObjectDescriptor": 7,
             "Enumerated": 10, "PrintableString": 19, "IsoDate": 26, "IsoTime": 26}
STRINGS = {"general": 27, "visible": 26}
PRINTABLE = set(b"ABCDEFGHIJKLMNOPQRSTUVWXYZabcdefghijklmnopqrstuvwxyz0123456789 '()+,-./:=?")
NUMBER = re.compile("0|-?[1-9][0-9]*")


class Fault(Exception):
    def __init__(self, cause, path):
        super().__init__(cause, path)
        self.cause, self.path = cause, path

    def pointer(self):
        """RFC 6901."""
        return "".join("/" + str(step).replace("~", "~0").replace("/", "~1") for step in self.path)


# ---- JSON: an object is a list of pairs, so that a member that comes twice is seen; a number is its text

class Number(str):
    pass


class Object(list):
    pass


def parse(text):
    """The JSON value of a text, or of octets in UTF-8; or Fault."""
    def refuse(word):
        raise ValueError(word)
    try:
        text = text if isinstance(text, str) else text.decode("utf-8")
        value = json.loads(text, object_pairs_hook=Object, parse_int=Number, parse_float=Number, parse_constant=refuse)
    except (ValueError, RecursionError) as error:
        raise Fault("NotJson", []) from error
    if levels(value) > NESTING or re.search("[\ud800-\udfff]", repr_strings(value)):
        raise Fault("NotJson", [])     # too deep, or a lone surrogate
    return value


def levels(value):
    """How many objects and lists are open at most in a value."""
    most, level = 0, [value]
    while level := [entry for entry in level if isinstance(entry, list)]:
        most += 1
        level = [entry[1] if isinstance(holder, Object) else entry for holder in level for entry in holder]
    return most


def repr_strings(value):
    if isinstance(value, Object):
        return "".join(key + repr_strings(inner) for key, inner in value)
    if isinstance(value, list):
        return "".join(map(repr_strings, value))
    return value if isinstance(value, str) else ""


# ---- DER

length, element = Writer().length, Writer().element


def whole(number):
    size = 1
    while not -(1 << 8 * size - 1) <= number < 1 << 8 * size - 1:
        size += 1
    return number.to_bytes(size, "big", signed=True)


def subidentifier(number):
    digits = [number & 0x7F]
    number >>= 7
    while number:
        digits.insert(0, 0x80 | number & 0x7F)
        number >>= 7
    return bytes(digits)


class Foreign:
    """Whether octets are the DER encoding of one foreign tree."""

    def __init__(self, octets):
        self.octets, self.fault = octets, None

    def is_one(self):
        return self.tree(0, len(self.octets), LEVELS) == len(self.octets)

    def tree(self, at, end, levels):
        """Where the tree ends that begins at an offset, or None."""
        o = self.octets
        if levels == 0 or at >= end:
            return None
        first, at = o[at], at + 1
        if first & 0x1F == 0x1F:
            number, count = 0, 0
            while True:
                if at >= end or count == 4:
                    return None
                number, count = number << 7 | o[at] & 0x7F, count + 1
                at += 1
                if o[at - 1] < 0x80:
                    break
            if number < 31 or o[at - count] == 0x80:
                return None
        elif first == 0x00:
            return None
        if at >= end:
            return None
        size, at = o[at], at + 1
        if size >= 0x80:
            count = size & 0x7F
            if count == 0 or count > 4 or at + count > end:
                return None
            size, at = int.from_bytes(o[at:at + count], "big"), at + count
            if length(size) != bytes([0x80 | count]) + o[at - count:at]:
                return None
        if at + size > end:
            return None
        if not first & 0x20:
            return at + size
        stop = at + size
        while at < stop:
            at = self.tree(at, stop, levels - 1)
            if at is None:
                return None
        return stop


# ---- the builder: rows in the tables' order, each member looked up by its name

class Builder:
    def __init__(self, tables, profile="2"):
        self.tables, self.profile = tables, profile
        self.lists = {name for name, node in tables.items() if len(node["rows"]) == 1 and "tag" not in node["rows"][0] and not node["choice"]}
        self.path = []

    def fault(self, cause, *more):
        raise Fault(cause, [*self.path, *more])

    def line(self, text):
        """The octets of a line, which is a text or octets, or Fault."""
        self.path = []
        if len(text) > LINE_LIMIT or isinstance(text, str) and len(text.encode("utf-8", "surrogatepass")) > LINE_LIMIT:
            self.fault("LineTooLong")
        value = parse(text)
        return self.message(value)

    def message(self, value):
        root = self.tables[ROOTS[self.profile]]
        members = self.members(value, lambda name: name in ("apdu", "value") or name in HEAD)
        if "profile" in members:
            word = members["profile"]
            if type(word) is not str:
                self.fault("WrongType", "profile")
            if word != self.profile:
                self.fault("OtherProfile" if word in ROOTS else "UnknownName", "profile")
        if "apdu" not in members:
            self.fault("MissingMember", "apdu")
        apdu = members["apdu"]
        if type(apdu) is not str:
            self.fault("WrongType", "apdu")
        number = next((i for i, row in enumerate(root["rows"]) if row["name"] == apdu), None)
        if number is None:
            self.fault("UnknownName", "apdu")
        row = root["rows"][number]
        if row["presence"] == "LeftOut":
            self.fault("LeftOut", "apdu")
        if "value" not in members:
            self.fault("MissingMember", "value")
        self.path = ["value"]
        octets = self.row(row, "", members["value"])
        if len(octets) > LIMIT:
            self.path = []
            self.fault("NormalTooLong")
        return octets

    def members(self, value, known):
        """The members of an object by name. The first that isn't known, or comes twice, is refused."""
        if not isinstance(value, Object):
            self.fault("WrongType")
        found = {}
        for name, inner in value:
            if name in found:
                self.fault("RepeatedMember", name)
            if not known(name):
                self.fault("UnknownMember", name)
            found[name] = inner
        return found

    def row_members(self, node, value):
        if not isinstance(value, Object):
            self.fault("WrongType")
        rows = {row["name"]: row for row in self.tables[node]["rows"]}
        found = {}
        for name, inner in value:
            if name in found:
                self.fault("RepeatedMember", name)
            if name not in rows:
                self.fault("UnknownMember", name)
            if rows[name]["presence"] == "LeftOut":
                self.fault("LeftOut", name)
            found[name] = inner
        return found

    def row(self, row, name, value):
        """What a row that has a value adds: nothing, where the value is the default."""
        tag, mode, node = tuple(row["tag"]) if "tag" in row else None, row.get("mode"), row["node"]
        if tag and mode != "Implicit":
            return element(tag, True, self.value(node, name, value, None))
        return self.value(node, name, value, tag)

    def member(self, row, value):
        self.path.append(row["name"])
        octets = self.row(row, row["name"], value)
        if row["presence"] == "Default" and self.is_default(row, octets):
            octets = b""
        self.path.pop()
        return octets

    def default(self, row):
        return bytes([0xFF if row["default"] else 0]) if row["node"] == "Boolean" else whole(row["default"])

    def is_default(self, row, octets):
        return octets == element(tuple(row["tag"]), False, self.default(row))

    def value(self, node, name, value, tag):
        if node not in self.tables:
            return self.leaf(node, name, value, tag)
        rows = self.tables[node]["rows"]
        if self.tables[node]["choice"]:
            if not rows[0]["name"]:
                return self.row(rows[0], "", value)       # under the tag of an EXTERNAL
            found = self.row_members(node, value)
            if len(found) != 1:
                self.fault("NotOneMember")
            (chosen, inner), = found.items()
            return self.member(next(row for row in rows if row["name"] == chosen), inner)
        if node in self.lists:
            if not isinstance(value, list) or isinstance(value, Object):
                self.fault("WrongType")
            parts = []
            for i, inner in enumerate(value):
                self.path.append(i)
                parts.append(self.row(rows[0], name, inner))
                self.path.pop()
            return element(tag or ("universal", 16), True, b"".join(parts))
        found = self.row_members(node, value)
        parts = []
        for row in rows:
            if row["name"] in found:
                parts.append(self.member(row, found[row["name"]]))
            elif row["presence"] == "Must":
                self.fault("MissingMember", row["name"])
        return element(tag or ("universal", 16), True, b"".join(parts))

    # ---- leaves

    def leaf(self, node, name, value, tag):
        if node == "Any":
            return self.foreign(value)
        if node == "IllString":
            found = self.members(value, lambda kind: kind in STRINGS)
            if len(found) != 1:
                self.fault("NotOneMember")
            (kind, text), = found.items()
            octets = self.characters(text, kind)
            if kind == "visible" and any(not 0x20 <= octet <= 0x7E for octet in octets):
                self.fault("BadText", kind)
            if kind == "general" and self.profile == "2" and set(octets) & {0x0E, 0x0F, 0x1B}:
                self.fault("BadText", kind)
            return element(("universal", STRINGS[kind]), False, octets)
        return element(tag or ("universal", UNIVERSAL[node]), False, self.content(node, name, value))

    def content(self, node, name, value):
        if node == "Boolean":
            if not isinstance(value, bool):
                self.fault("WrongType")
            return b"\xff" if value else b"\0"
        if node in ("Integer", "Enumerated"):
            return whole(self.number(name, value))
        if node == "Null":
            if value is not None:
                self.fault("WrongType")
            return b""
        if node == "OctetString":
            return self.hexadecimal(self.one(value, "octets"), "octets")
        if node == "BitString":
            return self.bits(value)
        if node == "ObjectIdentifier":
            return self.identifier(value)
        octets = self.characters(value)
        if node == "PrintableString" and not set(octets) <= PRINTABLE:
            self.fault("BadText")
        if node == "IsoDate" and not is_day(octets):
            self.fault("BadDate")
        if node == "IsoTime" and not is_time(octets):
            self.fault("BadTime")
        return octets

    def characters(self, text, *step):
        if type(text) is not str:
            self.fault("WrongType", *step)
        if any(ord(c) > 0xFF for c in text):
            self.fault("BadCharacter", *step)
        return text.encode("latin-1")

    def number(self, name, value):
        """A number, its name, or an object of both."""
        names = NUMBER_NAMES.get(name, {})
        if isinstance(value, Number):
            return self.whole_number(value)
        if type(value) is str and names:
            if value not in names.values():
                self.fault("UnknownName")
            return next(number for number, own in names.items() if own == value)
        if isinstance(value, Object) and names:
            found = self.members(value, lambda member: member in ("number", "name"))
            if "number" not in found:
                self.fault("MissingMember", "number")
            number = self.whole_number(found["number"], "number")
            if "name" not in found:
                self.fault("MissingMember", "name")
            if type(found["name"]) is not str:
                self.fault("WrongType", "name")
            if names.get(number) != found["name"]:
                self.fault("OtherName", "name")
            return number
        self.fault("WrongType")

    def whole_number(self, value, *step, least=-(1 << 63), most=(1 << 63) - 1):
        if not isinstance(value, Number):
            self.fault("WrongType", *step)
        if not NUMBER.fullmatch(value):
            self.fault("NotWhole", *step)
        if len(value) > 20 or not least <= int(value) <= most:
            self.fault("NumberTooLong", *step)
        return int(value)

    def one(self, value, name):
        found = self.members(value, lambda member: member == name)
        if name not in found:
            self.fault("MissingMember", name)
        return found[name]

    def hexadecimal(self, text, *step):
        if type(text) is not str:
            self.fault("WrongType", *step)
        if not re.fullmatch("([0-9a-f]{2})*", text):
            self.fault("BadHexadecimal", *step)
        return bytes.fromhex(text)

    def bits(self, value):
        found = self.members(value, lambda member: member in ("bits", "octets"))
        if "bits" not in found:
            self.fault("MissingMember", "bits")
        count = self.whole_number(found["bits"], "bits", least=0)
        if "octets" not in found:
            self.fault("MissingMember", "octets")
        octets = self.hexadecimal(found["octets"], "octets")
        unused = 8 * len(octets) - count
        if not 0 <= unused <= 7 or (unused and octets[-1] & (1 << unused) - 1):
            self.fault("BadBits")
        return bytes([unused]) + octets

    def identifier(self, text):
        if type(text) is not str:
            self.fault("WrongType")
        found = re.fullmatch("oid (([0-9a-f]{2})+)", text)
        if found:
            content = bytes.fromhex(found.group(1))
            numbers = subidentifiers(content)
            if numbers is None or all(n < 1 << 63 for n in numbers):
                self.fault("BadOid")       # no content, or one that has a text in decimals
            return content
        if not re.fullmatch("(0|[1-9][0-9]*)(\\.(0|[1-9][0-9]*))+", text) or len(text) > 1 << 22:
            self.fault("BadOid")
        parts = [p for p in text.split(".")]
        if any(len(p) > 19 for p in parts):
            self.fault("BadOid")
        first, second, *rest = map(int, parts)
        if first > 2 or (first < 2 and second > 39):
            self.fault("BadOid")
        numbers = [40 * first + second, *rest]
        if any(n >= 1 << 63 for n in numbers):
            self.fault("BadOid")
        return b"".join(map(subidentifier, numbers))

    def foreign(self, value):
        octets = self.hexadecimal(self.one(value, "foreign"), "foreign")
        if not Foreign(octets).is_one():
            self.fault("BadForeign", "foreign")
        return octets


def subidentifiers(content):
    numbers, n, fresh = [], 0, True
    for octet in content:
        if fresh and octet == 0x80:
            return None
        n, fresh = n << 7 | octet & 0x7F, octet < 0x80
        if fresh:
            numbers.append(n)
            n = 0
    return numbers if fresh and numbers else None


def is_day(octets):
    if not re.fullmatch(b"[0-9]{8}", octets):
        return False
    year, month, day = int(octets[:4]), int(octets[4:6]), int(octets[6:])
    leap = year % 4 == 0 and (year % 100 != 0 or year % 400 == 0)
    return 1 <= month <= 12 and 1 <= day <= [31, 28 + leap, 31, 30, 31, 30, 31, 31, 30, 31, 30, 31][month - 1]


def is_time(octets):
    if not re.fullmatch(b"[0-9]{6}", octets):
        return False
    hour, minute, second = int(octets[:2]), int(octets[2:4]), int(octets[4:])
    return hour <= 23 and minute <= 59 and second <= 60 or octets == b"240000"
