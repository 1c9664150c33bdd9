"""The tables of the module with their names, as tables.json has them; random values that fit them; and what the comparing scripts share."""
import json
import random
import sys
from collections import namedtuple
from pathlib import Path

TOP = Path(__file__).resolve().parents[2]
PROGRAM = TOP / "crates/illcanon/out/illcanon"
# the numbers of their universal tags
LEAVES = {
    "Boolean": 1,
    "Integer": 2,
    "BitString": 3,
    "OctetString": 4,
    "Null": 5,
    "ObjectIdentifier": 6,
    "ObjectDescriptor": 7,
    "Enumerated": 10,
    "PrintableString": 19,
    "IsoDate": 26,
    "IsoTime": 26,
}
PRINTABLE = "ABCXYZabcxyz0189 '()+,-./:=?"
VISIBLE = "".join(map(chr, range(0x20, 0x7F)))
# in Latin-1
GENERAL = VISIBLE + "\0\t\n\x7f\x80\xa0\xe9\xff"
# SO, SI and ESC, which only the module profile reads
SHIFTS = "\x0e\x0f\x1b"
# the most levels of a foreign tree, the value of an open type
LEVELS = 20
TAG_NUMBERS = [0, 1, 30, 31, 127, 128, 16383, 16384, 2**21 - 1, 2**21, 2**28 - 1]
SIZES = [0, 1, 2, 5, 20, 130, 300]

Row = namedtuple("Row", "presence default tag mode node")
# Values that only the module profile has: NULL; bits, in as few octets as hold them, the unused ones 0; and foreign trees, with octets where they
# are primitive and a list of trees where they are constructed. An OBJECT IDENTIFIER is its content, an OCTET STRING its octets, and an
# ObjectDescriptor a text with a character for each octet.
NULL = ()
Bits = namedtuple("Bits", "count octets")
Tree = namedtuple("Tree", "tag contents")


def read_tables():
    """The rows of each node, the nodes that are choices, and the name of each node with those of its rows."""
    nodes = json.loads((Path(__file__).parent / "tables.json").read_text())
    rows = {
        node: [Row(row["presence"], row.get("default"), tuple(row["tag"]) if "tag" in row else None, row.get("mode"), row["node"]) for row in entry["rows"]]
        for node, entry in nodes.items()
    }
    names = {node: (entry["name"], [row["name"] for row in entry["rows"]]) for node, entry in nodes.items()}
    return rows, {node for node, entry in nodes.items() if entry["choice"]}, names


ALL_ROWS, CHOICES, NAMES = read_tables()
ALL_LISTS = {node for node, rows in ALL_ROWS.items() if len(rows) == 1 and rows[0].tag is None and node not in CHOICES}


def reached(root):
    """The nodes that a message of this type can have."""
    nodes = [root]
    for node in nodes:
        nodes += [inner for inner in dict.fromkeys(row.node for row in ALL_ROWS.get(node, [])) if inner not in nodes]
    return nodes


# the type of a message, by its profile
ROOTS = {"2": "IllApdu", "module": "ModuleIllApdu"}
# the rows and lists of profile 2 alone, for what goes through them all
TWO = set(reached(ROOTS["2"]))
ROWS = {node: rows for node, rows in ALL_ROWS.items() if node in TWO}
LISTS = ALL_LISTS & TWO


def read_enumerations():
    """The numbers that have names in a row, with those names, by the row's name; items of a list inside a row have the name of that row."""
    types = json.loads((Path(__file__).parent / "enumerations.json").read_text())
    return {row: dict(map(tuple, entry["numbers"])) for entry in types for row in entry["rows"]}


# the ENUMERATED types of the module, as enumerations.json has them: the rows of each, and its numbers with their names, as the module spells them
NUMBER_NAMES = read_enumerations()
# the rows whose numbers have their names in the text, too
NAMED_IN_TEXT = {"transaction-type", "ill-service-type", "place-on-hold", "item-type", "transaction-results"}


def default_of(row):
    """The value of a row that is absent: its default, or None."""
    if row.presence != "Default":
        return None
    return bool(row.default) if row.node == "Boolean" else row.default


def random_text(chance, alphabet):
    return "".join(chance.choice(alphabet) for _ in range(chance.choice(SIZES)))


def random_octets(chance):
    return chance.randbytes(chance.choice(SIZES))


def random_identifier(chance):
    """The content of an OBJECT IDENTIFIER: its subidentifiers, each in as few octets as hold it."""
    content = bytearray()
    for _ in range(chance.randint(1, 8)):
        number = chance.getrandbits(chance.choice([1, 6, 7, 8, 14, 21, 63, 64, 90]))
        content += bytes(0x80 | number >> 7 * i & 0x7F for i in range((number.bit_length() - 1) // 7, 0, -1)) + bytes([number & 0x7F])
    return bytes(content)


def random_bits(chance):
    octets = random_octets(chance)
    unused = chance.choice([0, chance.randrange(8)]) if octets else 0
    return Bits(8 * len(octets) - unused, octets[:-1] + bytes([octets[-1] >> unused << unused]) if unused else octets)


def random_tag(chance):
    number = chance.choice([chance.randrange(31), chance.randrange(31), chance.choice(TAG_NUMBERS)])
    return chance.choice(["universal", "application", "context", "private"]), number


def random_tree(chance, levels):
    """A foreign tree of at most so many levels, and at least three fewer."""
    tag = random_tag(chance)
    if levels > 4:
        trees = [random_tree(chance, 2) for _ in range(chance.choice([0, 0, 1, 2]))]
        trees.insert(chance.randint(0, len(trees)), random_tree(chance, levels - 1))
        return Tree(tag, trees)
    if tag == ("universal", 0) or chance.random() < 0.5:
        return Tree(tag, [random_tree(chance, levels - 1) for _ in range(chance.randrange(4) if levels > 1 else 0)])
    return Tree(tag, random_octets(chance) if chance.random() < 0.2 else chance.randbytes(chance.randrange(4)))


def random_foreign(chance):
    """A foreign tree, mostly a small one, and sometimes with the most levels."""
    return random_tree(chance, chance.choice([1, 1, 2, 2, 3, 4, 5, LEVELS]))


# what only the module profile has
RANDOM = {
    "Any": random_foreign,
    "Null": lambda chance: NULL,
    "ObjectIdentifier": random_identifier,
    "OctetString": random_octets,
    "BitString": random_bits,
    "ObjectDescriptor": lambda chance: random_octets(chance).decode("latin-1"),
}


def random_leaf(chance, node):
    if node == "Boolean":
        return chance.random() < 0.5
    if node == "IsoDate":
        day = chance.choice(["0229", "0228", "0131", "1231", "%02d%02d" % (chance.randint(1, 12), chance.randint(1, 28))])
        return chance.choice(["0000", "0004", "2000", "2024"]) + day
    if node == "IsoTime":
        return chance.choice(["240000", "000000", "235960", "%02d%02d%02d" % (chance.randint(0, 23), chance.randint(0, 59), chance.randint(0, 60))])
    if node == "PrintableString":
        return random_text(chance, PRINTABLE)
    if node in RANDOM:
        return RANDOM[node](chance)
    if node == "Enumerated" and chance.random() < 0.5:
        return chance.randint(1, 31)
    edges = [0, 1, -1, 127, 128, -128, -129, 255, 256, 2**31, -(2**31), 2**63 - 1, -(2**63)]
    return chance.choice(edges + [chance.randint(-1000, 1000)])


def random_value(chance, node, general=None):
    """A value of a node. Its GeneralStrings have characters of `general`, by default those that the node's profile reads."""
    general = general or (GENERAL if node in TWO else GENERAL + SHIFTS)
    if node == "IllString":
        name, alphabet = chance.choice([("general", general), ("visible", VISIBLE)])
        return name, random_text(chance, alphabet)
    if node in CHOICES:
        number = chance.choice([i for i, row in enumerate(ALL_ROWS[node]) if row.presence != "LeftOut"])
        return number, random_value(chance, ALL_ROWS[node][number].node, general)
    if node in ALL_LISTS:
        return [random_value(chance, ALL_ROWS[node][0].node, general) for _ in range(chance.choice([0, 1, 2, 4]))]
    if node not in ALL_ROWS:
        return random_leaf(chance, node)
    return [random_entry(chance, row, general) for row in ALL_ROWS[node]]


def random_entry(chance, row, general):
    if row.presence == "LeftOut" or row.presence == "May" and chance.random() < 0.6:
        return None
    if row.presence == "Default" and chance.random() < 0.5:
        return default_of(row)
    return random_value(chance, row.node, general)


def seed_and_count():
    """A run's seed and how many values it tries, as the command line has them."""
    seed = int(sys.argv[1]) if len(sys.argv) > 1 else random.randrange(1_000_000)
    return seed, int(sys.argv[2]) if len(sys.argv) > 2 else 2000


def profile_and_words():
    """A run's profile, as the command line has it third, and the words that name it to the program."""
    profile = sys.argv[3] if len(sys.argv) > 3 else "2"
    if profile not in ROOTS:
        sys.exit(f"no profile {profile}: " + " or ".join(ROOTS))
    return profile, [] if profile == "2" else ["--profile", profile]
