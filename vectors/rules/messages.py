"""Messages that the test vectors are made from: an EXPIRED piece by piece, and the least message round each node of the tables."""
import copy
from functools import cache

from model.encoder import Writer
from model.tables import ALL_LISTS, ALL_ROWS, CHOICES, NAMES, NULL, ROOTS, Bits, Tree, default_of

from rules.octets import element, joined, text

# what each message begins with
VERSION = element("80", "02")
GROUP = element("A1", element("1B", "47"))
QUALIFIER = element("A2", element("1B", "51"))
TRANSACTION = element("A1", GROUP, QUALIFIER)
DATE = element("80", text("20240229"))
SERVICE = element("A2", element("A0", DATE))
HEAD = joined(VERSION, TRANSACTION, SERVICE)

HEAD_VALUE = {
    "protocol-version-num": 2,
    "transaction-id": {"transaction-group-qualifier": {"general": "G"}, "transaction-qualifier": {"general": "Q"}},
    "service-date-time": {"date-time-of-this-service": {"date": "20240229"}},
}
TYPES, OPTIONAL_MESSAGES = joined("A9 03 0A 01 01"), joined("AB 0C 80 01 00 81 01 00 82 01 01 83 01 01")
REQUEST_VALUE = {
    "ill-service-type": [1],
    "requester-optional-messages": {"can-send-received": False, "can-send-returned": False, "requester-shipped": 1, "requester-checked-in": 1},
    "item-id": {},
}
# the tags of the APDUs, and of the results of an ILL-ANSWER
APPLICATION = {name: f"{0x61 + i:02X}" for i, name in enumerate(NAMES["IllApdu"][1])}
RESULT = {name: f"{0xA1 + i:02X}" for i, name in enumerate(NAMES["Results"][1])}


def with_head(changes=None, **parts):
    """The value of an APDU's body: the head, with these parts changed or added."""
    value = copy.deepcopy(HEAD_VALUE)
    for name, part in {**(changes or {}), **{name.replace("_", "-"): part for name, part in parts.items()}}.items():
        value[name] = part
    return value


def with_group(general=None, visible=None):
    """The value of an EXPIRED with another transaction-group-qualifier."""
    kind = {"general": general} if visible is None else {"visible": visible}
    return with_head({"transaction-id": {"transaction-group-qualifier": kind, "transaction-qualifier": {"general": "Q"}}})


def with_date(date, time=None):
    """The value of an EXPIRED with another date of this service, and a time."""
    parts = {"date": date} if time is None else {"date": date, "time": time}
    return with_head({"service-date-time": {"date-time-of-this-service": parts}})


def message(apdu, *contents):
    """A message in definite form with these contents after its head."""
    return element(APPLICATION[apdu], element("30", HEAD, *contents))


def request(types=TYPES, messages=OPTIONAL_MESSAGES, medium=b"", item="B0 00", beside=b""):
    """An ILL-REQUEST in definite form, of these pieces, with each of its defaults."""
    return message("ILL-Request", "85 01 01", types, messages, medium, "8E 01 03", item, beside, "95 01 00 96 01 00")


def expired(*contents, version=VERSION, group=GROUP, qualifier=QUALIFIER, date=DATE):
    """An EXPIRED in definite form, of these pieces."""
    service = element("A2", element("A0", date))
    return element("74", element("30", version, element("A1", group, qualifier), service, *contents))


class Octets:
    """Octets that stand in place of a part of a value."""

    def __init__(self, *pieces):
        self.octets = joined(*pieces)


class Contents(Octets):
    """Octets that stand in place of the contents of a sequence or list."""


class Builder(Writer):
    """Writes values in which octets stand in place of a part, with a mark among them. Defaults are written, so that no other rule is tested."""

    def row(self, row, value):
        return value.octets if type(value) is Octets else super().row(row, value)

    def contents(self, node, value):
        if isinstance(value, Contents):
            return value.octets
        rows = ALL_ROWS[node] * len(value) if node in ALL_LISTS else ALL_ROWS[node]
        return joined(*(self.row(row, entry) for row, entry in zip(rows, value) if entry is not None))

    def writes_default(self):
        return True


SAMPLES = {
    "Boolean": True,
    "Integer": 1,
    "Enumerated": 1,
    "IsoDate": "20240229",
    "IsoTime": "120000",
    "PrintableString": "1",
    "IllString": ("general", "A"),
    "Null": NULL,
    "ObjectIdentifier": bytes([0x2A, 0x03]),
    "OctetString": b"A",
    "BitString": Bits(5, b"\xf8"),
    "ObjectDescriptor": "D",
    "Any": Tree(("universal", 5), b""),
}


def sample(node):
    """A small value of a node: each mandatory part, and one item of a list."""
    if node in SAMPLES:
        return SAMPLES[node]
    if node in CHOICES:
        return 0, sample(ALL_ROWS[node][0].node)
    if node in ALL_LISTS:
        return [sample(ALL_ROWS[node][0].node)]
    entries = [sample(row.node) if row.presence == "Must" else default_of(row) for row in ALL_ROWS[node]]
    if node == "TransactionId":
        entries[1:3] = ("general", "G"), ("general", "Q")
    if len(entries) > 2 and ALL_ROWS[node][2].node == "ServiceDateTime":
        entries[0] = 2
    return entries


def other(row):
    """A small value of a row that isn't its default."""
    default = default_of(row)
    if default is None:
        return sample(row.node)
    return not default if isinstance(default, bool) else default + 1


def full(node):
    """A value of a sequence with each part, none of them a default."""
    return [None if row.presence == "LeftOut" else other(row) for row in ALL_ROWS[node]]


def carried():
    """The rows of the APDUs that are read."""
    return [i for i, row in enumerate(ALL_ROWS[ROOTS["2"]]) if row.presence != "LeftOut"]


def ways(node, wanted):
    """Each way from a node down to another: a list of nodes and rows."""
    if node == wanted:
        yield []
        return
    for i, row in enumerate(ALL_ROWS.get(node, [])):
        if row.presence != "LeftOut":
            for rest in ways(row.node, wanted):
                yield [(node, i), *rest]


def along(way, inner):
    """The small value in which another stands at the end of the way."""
    if not way:
        return inner
    (node, i), rest = way[0], way[1:]
    entry = along(rest, inner)
    if node in CHOICES:
        return i, entry
    if node in ALL_LISTS:
        return [entry]
    entries = sample(node)
    entries[i] = entry
    return entries


@cache
def shortest_way(wanted, root=ROOTS["2"]):
    """The way to a node that makes the shortest message."""
    return min(ways(root, wanted), key=lambda way: (len(Writer().value(root, along(way, sample(wanted)), None)), len(way)))


def around(node, inner, root=ROOTS["2"]):
    """The small APDU in which a value of the node stands."""
    return along(shortest_way(node, root), inner)


def octets_of(apdu, root=ROOTS["2"]):
    """The octets of an APDU in which octets stand in place of a part."""
    return Builder().value(root, apdu, None)


def identifier(row):
    """The identifier octets of a row's tag, constructed."""
    return Writer().identifier(row.tag, True)


def part_name(node, i):
    """The name of a row, as a refusal names it."""
    return f"{NAMES[node][0]}.{NAMES[node][1][i]}"


def slug(name):
    """A name as a part of an id."""
    return name.lower().replace(".", "-")
