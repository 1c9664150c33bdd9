"""Values of APDUs as JSON, and back.

A sequence is an object with an entry for each part that is there or has a default, under the name of its row. A choice is an object with one
entry, under the name of the alternative. A list is an array. An ILL-String is an object with one entry, `general` or `visible`. A character of a
text is one octet. A long text is an array of [hexadecimal, count], and a long list of equal items an object with `item` and `count`.

In the module profile a NULL is null; an OBJECT IDENTIFIER is its numbers with dots between them, or `oid` and its content where one has more than
nine octets; an OCTET STRING is an object with `octets`, a BIT STRING one with `bits` and `octets`, and a foreign tree one with `foreign`, its
normal octets, all in hexadecimal. EXTERNAL's own tag is a choice whose one row has no name, so that only what is in it is written.
"""
from model.encoder import Writer
from model.judge import Judge
from model.tables import ALL_LISTS, ALL_ROWS, CHOICES, NAMES, NULL, Bits, Tree, default_of

from rules.octets import SHORT, expanded, runs

LONG_LIST = 64
# the numbers that every reader of JSON keeps
EXACT = 2**53


def to_json(node, value):
    if node in MODULE:
        return MODULE[node][0](value)
    if node == "IllString":
        return {value[0]: text_to_json(value[1])}
    if node in CHOICES:
        inner = to_json(ALL_ROWS[node][value[0]].node, value[1])
        name = NAMES[node][1][value[0]]
        return {name: inner} if name else inner
    if node in ALL_LISTS:
        return list_to_json(ALL_ROWS[node][0].node, value)
    if node in ALL_ROWS:
        entries = zip(NAMES[node][1], ALL_ROWS[node], value)
        return {name: to_json(row.node, entry) for name, row, entry in entries if entry is not None}
    if isinstance(value, str):
        return text_to_json(value)
    return value if isinstance(value, bool) or abs(value) < EXACT else str(value)


def text_to_json(value):
    return runs(value.encode("latin-1")) if len(value) >= SHORT else value


def list_to_json(node, items):
    if len(items) > LONG_LIST and all(item == items[0] for item in items):
        return {"item": to_json(node, items[0]), "count": len(items)}
    return [to_json(node, item) for item in items]


def identifier_to_json(content):
    """The numbers of an OBJECT IDENTIFIER (X.690, 8.19.2 to 8.19.4)."""
    numbers, number, size = [], 0, 0
    for octet in content:
        number, size = number << 7 | octet & 0x7F, size + 1
        if size > 9:
            return "oid " + content.hex()
        if octet < 0x80:
            numbers.append(number)
            number, size = 0, 0
    root = min(numbers[0] // 40, 2)
    return ".".join(map(str, [root, numbers[0] - 40 * root, *numbers[1:]]))


def identifier_from_json(text):
    if text.startswith("oid "):
        return bytes.fromhex(text[4:])
    root, second, *others = map(int, text.split("."))
    return b"".join(map(subidentifier, [40 * root + second, *others]))


def subidentifier(number):
    """A number in as few octets of seven bits as hold it."""
    size = max(1, (number.bit_length() + 6) // 7)
    return bytes((0x80 if i else 0) | number >> 7 * i & 0x7F for i in reversed(range(size)))


def octets_to_json(value):
    return {"runs": runs(value)} if len(value) >= SHORT else {"octets": value.hex()}


def octets_from_json(value):
    return expanded(value["runs"]) if "runs" in value else bytes.fromhex(value["octets"])


def tree_to_json(tree):
    octets = Writer().tree(tree)
    return {"foreign_runs": runs(octets)} if len(octets) >= SHORT else {"foreign": octets.hex()}


def tree_from_json(value):
    octets = expanded(value["foreign_runs"]) if "foreign_runs" in value else bytes.fromhex(value["foreign"])
    tree, end = tree_of(Judge(octets, "module"), 0)
    assert end == len(octets)
    return tree


def tree_of(reader, place):
    """The tree of the element at a place, of definite lengths, and where it ends."""
    tag, constructed, at = reader.identifier(place)
    size, at = reader.length(at, constructed, place)
    if not constructed:
        return Tree(tag, reader.octets[at : at + size]), at + size
    trees, end = [], at + size
    while at < end:
        tree, at = tree_of(reader, at)
        trees.append(tree)
    return Tree(tag, trees), end


# what only the module profile has: to JSON, and back
MODULE = {
    "Null": (lambda value: None, lambda value: NULL),
    "ObjectIdentifier": (identifier_to_json, identifier_from_json),
    "OctetString": (octets_to_json, octets_from_json),
    "BitString": (lambda value: {"bits": value.count, "octets": value.octets.hex()}, lambda value: Bits(value["bits"], bytes.fromhex(value["octets"]))),
    "Any": (tree_to_json, tree_from_json),
}


def from_json(node, value):
    if node in MODULE:
        return MODULE[node][1](value)
    if node == "IllString":
        ((kind, text),) = value.items()
        return kind, text_from_json(text)
    if node in CHOICES and NAMES[node][1] == [""]:
        return 0, from_json(ALL_ROWS[node][0].node, value)
    if node in CHOICES:
        ((name, inner),) = value.items()
        number = NAMES[node][1].index(name)
        return number, from_json(ALL_ROWS[node][number].node, inner)
    if node in ALL_LISTS:
        if isinstance(value, dict):
            return [from_json(ALL_ROWS[node][0].node, value["item"])] * value["count"]
        return [from_json(ALL_ROWS[node][0].node, item) for item in value]
    if node in ALL_ROWS:
        assert value.keys() <= set(NAMES[node][1]), (node, value)
        entries = zip(NAMES[node][1], ALL_ROWS[node])
        return [from_json(row.node, value[name]) if name in value else default_of(row) for name, row in entries]
    if node in ("Integer", "Enumerated"):
        return int(value)
    return value if isinstance(value, bool) else text_from_json(value)


def text_from_json(text):
    return text if isinstance(text, str) else expanded(text).decode("latin-1")
