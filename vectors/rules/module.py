"""The module profile: each row of its own nodes, EXTERNAL, foreign trees, the leaves that it adds, and its causes of refusal."""
from itertools import product

from model.encoder import Writer
from model.tables import ALL_LISTS, ALL_ROWS, CHOICES, LEVELS, NAMES, NULL, ROOTS, TWO, Bits, Tree, reached

from rules.book import Book
from rules.limits import LIMIT
from rules.messages import HEAD, Octets, along, full, identifier, other, part_name, sample, shortest_way, slug
from rules.octets import MARK, element, indefinite, joined, text
from rules.rows import sequences, tables

PROFILE = "module"
ROOT = ROOTS[PROFILE]
# the nodes that the module profile has beside those of profile 2, the message itself apart
NODES = [node for node in reached(ROOT) if node in ALL_ROWS and node not in TWO and node != ROOT]
# EXTERNAL's own tag apart, whose one row has no name
ROW_NODES = [node for node in NODES if node != "TaggedExternal"]
SEQUENCE, INTEGER, OCTETS = ("universal", 16), ("universal", 2), ("universal", 4)
DATE = "9F 25 08 32 30 32 34 30 32 32 39"


def books():
    for name, title, *parts in [
        ("module_tables", "each row of its nodes, present and absent", lambda book: tables(book, ROW_NODES)),
        ("module_sequences", "order, repetition, nothing else", lambda book: sequences(book, ROW_NODES)),
        ("module_tagging", "choices, IMPLICIT and EXPLICIT tags", alternatives, tags),
        ("module_leaves", "NULL, OBJECT IDENTIFIER, OCTET STRING, BIT STRING, ObjectDescriptor", leaves),
        ("module_external", "EXTERNAL (X.690, 8.18)", externals),
        ("module_foreign", "values of open types", foreign),
        ("module_causes", "each cause of refusal", causes),
    ]:
        book = Book(name, f"The module profile: {title}", PROFILE)
        for part in parts:
            part(book)
        yield book


# ---- messages


def expired(*item, tail=()):
    """An EXPIRED with an extension whose item has these contents."""
    extension = element("30", "80 01 01", element("A2", *item))
    return element("74", element("30", HEAD, element("BF 31", extension), *tail))


def returned(*contents):
    """A RETURNED whose supplemental-item-description has these contents."""
    return element("6A", element("30", HEAD, element("B1", *contents), DATE))


def damaged(*contents):
    """A DAMAGED whose damaged-details have these contents."""
    return element("70", element("30", HEAD, element("A5", *contents)))


def expired_value(tree):
    """The APDU of an EXPIRED with an extension of this item."""
    body = sample(node_of("Expired"))
    body[-1] = [[1, False, tree]]
    return NAMES[ROOT][1].index("Expired"), body


def returned_value(*externals):
    body = sample(node_of("Returned"))
    body[position("Returned", "supplemental-item-description")] = [(0, external) for external in externals]
    body[position("Returned", "date-returned")] = "20240229"
    return NAMES[ROOT][1].index("Returned"), body


def node_of(apdu):
    return ALL_ROWS[ROOT][NAMES[ROOT][1].index(apdu)].node


def position(apdu, row):
    return NAMES[node_of(apdu)][1].index(row)


# ---- choices and tags


def placed(book, node, i, octets):
    """A message in which these octets stand in place of a row."""
    if node in CHOICES:
        return book.octets_of(along(shortest_way(node, ROOT), (i, octets)))
    entries = sample(node)
    entries[i] = octets
    return book.octets_of(book.around(node, entries))


def alternatives(book):
    group = book.group("alternatives", "A choice is exactly one of its alternatives.", clause="X.690, 8.13")
    for node in ROW_NODES:
        if node not in CHOICES:
            continue
        for i, row in enumerate(ALL_ROWS[node]):
            part = part_name(node, i)
            for what, value in [("small", sample(row.node)), ("full", full(row.node) if is_sequence(row.node) else sample(row.node))]:
                apdu = along(shortest_way(node, ROOT), (i, value))
                group.spells(book.id(f"alternative-{slug(part)}-{what}"), f"the alternative {part}, {what}", book.octets_of(apdu), apdu)
            octets = placed(book, node, i, Octets(MARK, "9F 64 00"))
            group.refused(book.id(f"alternative-{slug(part)}-other"), f"[100] in place of {part}", octets, "UnexpectedTag")
    bodies = book.group("the APDUs", "A message is one of twenty APDUs.", row="ILL-APDU")
    for i, row in enumerate(ALL_ROWS[ROOT]):
        name = slug(NAMES[ROOT][1][i])
        for what, body in [("small", sample(row.node)), ("full", full(row.node))]:
            apdu = i, body
            bodies.spells(book.id(f"apdu-{name}-{what}"), f"{NAMES[ROOT][1][i]}, {what}", book.octets_of(apdu), apdu)


def is_sequence(node):
    return node in ALL_ROWS and node not in ALL_LISTS and node not in CHOICES


def tags(book):
    empty = book.group("EXPLICIT tags round nothing", "An EXPLICIT tag is round one element.", clause="X.690, 8.14")
    twice = book.group("EXPLICIT tags round two elements", "An EXPLICIT tag is round one element.", clause="X.690, 8.14")
    doubled = book.group("IMPLICIT tags as EXPLICIT ones", "An IMPLICIT tag replaces the tag of the element.", clause="X.690, 8.14")
    bare = book.group("EXPLICIT tags as IMPLICIT ones", "An EXPLICIT tag doesn't replace the tag of the element.", clause="X.690, 8.14")
    for node in ROW_NODES:
        for i, row in enumerate(ALL_ROWS[node]):
            if row.tag and row.mode == "Explicit":
                explicit(book, empty, twice, bare, node, i)
            elif row.tag and row.mode == "Implicit":
                implicit(book, doubled, node, i)


def explicit(book, empty, twice, bare, node, i):
    row, part = ALL_ROWS[node][i], part_name(node, i)
    inner = Writer().value(row.node, sample(row.node), None)
    octets = placed(book, node, i, Octets(element(identifier(row), MARK)))
    empty.refused(book.id(f"explicit-empty-{slug(part)}"), f"the tag of {part} round nothing", octets, "Missing", part)
    octets = placed(book, node, i, Octets(element(identifier(row), inner, MARK, inner)))
    twice.refused(book.id(f"explicit-twice-{slug(part)}"), f"the tag of {part} round two elements", octets, "UnexpectedTag")
    octets = placed(book, node, i, Octets(MARK, element(Writer().identifier(row.tag, False), "41")))
    bare.refused(book.id(f"explicit-primitive-{slug(part)}"), f"the tag of {part}, primitive", octets, "WrongForm")


def implicit(book, doubled, node, i):
    row, part = ALL_ROWS[node][i], part_name(node, i)
    if row.node in ALL_LISTS or row.node in ("OctetString", "BitString", "ObjectDescriptor", "PrintableString", "IsoDate", "IsoTime"):
        return
    inner = Writer().value(row.node, other(row), None)
    if row.node not in ALL_ROWS:
        octets = placed(book, node, i, Octets(MARK, element(identifier(row), inner)))
        doubled.refused(book.id(f"implicit-doubled-{slug(part)}"), f"the tag of {part} round its own", octets, "WrongForm")


# ---- leaves

# contents of OBJECT IDENTIFIERs, and their text
IDENTIFIERS = {
    "00": "0.0", "27": "0.39", "28": "1.0", "4f": "1.39", "50": "2.0", "7f": "2.47", "8100": "2.48", "8837": "2.999",
    "2a03": "1.2.3", "2a8648ce13050a": "1.2.840.10003.5.10", "2affffffffffffffff7f": "1.2.9223372036854775807",
    "2a8180808080808080800 0".replace(" ", ""): "oid 2a81808080808080808000", "69ffffffffffffffffff7f": "oid 69ffffffffffffffffff7f",
    "2a00": "1.2.0", "2a0000": "1.2.0.0", "2a7f": "1.2.127", "2a8100": "1.2.128", "2aff7f": "1.2.16383",
}
BAD_IDENTIFIERS = {
    "": "no octets", "80": "a number that doesn't end", "2a80": "a last number that doesn't end", "8001": "a first number with a padding octet",
    "2a8001": "a second number with a padding octet", "2a038000": "a last number with a padding octet", "ff": "one octet that doesn't end",
    "2aff": "a last octet above 7F", "2a81": "a number cut after its first octet",
}
# contents of BIT STRINGs, and the content in normal form
BITS = {"00": "00", "00ff": "00ff", "0100": "0100", "01ff": "01fe", "02ff": "02fc", "03ff": "03f8", "04ff": "04f0", "05ff": "05e0", "06ff": "06c0",
        "07ff": "0780", "0780": "0780", "07ffff": "07ff80", "00a5a5": "00a5a5", "0401": "0400", "03000001": "03000000"}
BAD_BITS = {"": "no octets", "01": "an unused bit of nothing", "07": "seven unused bits of nothing", "0800": "eight unused bits", "ff00": "255 unused bits"}


def leaves(book):
    null(book)
    identifiers(book)
    octet_strings(book)
    bit_strings(book)
    descriptors(book)
    generals(book)


def null(book):
    group = book.group("NULL", "A NULL is primitive and has no octets.", clause="X.690, 8.8")
    apdu = NAMES[ROOT][1].index("Damaged"), [*sample(node_of("Damaged"))]
    apdu[1][position("Damaged", "damaged-details")] = [None, (0, NULL)]
    for name, length in [("short", "81 00"), ("long", "81 81 00"), ("longer", "81 84 00 00 00 00")]:
        group.spells(book.id(f"null-{name}"), f"a NULL with a length in {name} form", damaged(length), apdu)
    for size in (1, 2, 127, 128):
        octets = damaged(MARK, element("81", bytes(size)))
        group.refused(book.id(f"null-of-{size}"), f"a NULL of {size} octets", octets, "BadNull")
    group.refused(book.id("null-constructed"), "a constructed NULL", damaged(MARK, "A1 00"), "WrongForm")


def identifiers(book):
    group = book.group("OBJECT IDENTIFIER", "Subidentifiers in as few octets as hold them.", clause="X.690, 8.19")
    for content, shown in IDENTIFIERS.items():
        content = bytes.fromhex(content)
        external = [content, None, None, (1, b"")]
        octets = returned(element("28", element("06", content), "81 00"))
        group.spells(book.id(f"oid-{content.hex()}"), f"the OBJECT IDENTIFIER {shown}", octets, returned_value(external))
    for content, what in BAD_IDENTIFIERS.items():
        octets = returned(element("28", MARK, element("06", bytes.fromhex(content)), "81 00"))
        group.refused(book.id(f"oid-bad-{content or 'empty'}"), what, octets, "BadOid")
        octets = damaged(MARK, element("80", bytes.fromhex(content)), "81 00")
        group.refused(book.id(f"oid-implicit-bad-{content or 'empty'}"), f"{what}, with an IMPLICIT tag", octets, "BadOid")
    group.refused(book.id("oid-constructed"), "a constructed OBJECT IDENTIFIER", returned(element("28", MARK, "26 03 06 01 2A", "81 00")), "WrongForm")
    for size in (1, 2, 9, 10, 127, 128, 300):
        content = b"\x81" * (size - 1) + b"\x01"
        octets = returned(element("28", element("06", content), "81 00"))
        group.spells(book.id(f"oid-one-number-of-{size}"), f"a number of {size} octets", octets, returned_value([content, None, None, (1, b"")]))


def octet_strings(book):
    group = book.group("OCTET STRING", "Any octets, whole or in segments.", clause="X.690, 8.7")
    for name, content in contents():
        value = returned_value([None, None, None, (1, content)])
        group.spells(book.id(f"octets-{name}-primitive"), f"{name}, primitive", returned(element("28", element("81", content))), value)
        for how, inner in segmented(content):
            octets = returned(element("28", element("A1", inner)))
            group.spells(book.id(f"octets-{name}-{how}"), f"{name}, {how.replace('-', ' ')}", octets, value)
            octets = returned(element("28", indefinite("A1", inner)))
            group.spells(book.id(f"octets-{name}-{how}-indefinite"), f"{name}, {how.replace('-', ' ')}, in indefinite form", octets, value)
    for tag, what in [("03 01 00", "a BIT STRING"), ("1B 00", "a GeneralString"), ("80 00", "[0]"), ("30 00", "a SEQUENCE")]:
        octets = returned(element("28", element("A1", "04 01 41", MARK, tag)))
        group.refused(book.id(f"octets-segment-{tag.split()[0].lower()}"), f"{what} among the segments", octets, "UnexpectedTag")


def contents():
    """Contents by name."""
    yield "empty", b""
    yield "text", b"X12345"
    yield "zeros", bytes(3)
    yield "all-octets", bytes(range(256))
    yield "128-octets", b"A" * 128


def segmented(content):
    """The segments of a content by how they are cut."""
    half = len(content) // 2
    yield "in-one-segment", element("04", content)
    yield "in-two-segments", joined(element("04", content[:half]), element("04", content[half:]))
    yield "in-nested-segments", joined(element("24", element("04", content[:half]), "04 00"), indefinite("24", element("04", content[half:])))


def bit_strings(book):
    group = book.group("BIT STRING", "The number of unused bits, and the bits; unused ones are 0 in normal form.", clause="X.690, 8.6 and 11.2.1")
    for content, normal in BITS.items():
        value = returned_value([None, 5, None, (2, bits_of(normal))])
        octets = returned(element("28", "02 01 05", element("82", bytes.fromhex(content))))
        group.spells(book.id(f"bits-{content}"), f"the content {content}, which is {normal} in normal form", octets, value)
        octets = returned(element("28", "02 01 05", element("A2", element("03", bytes.fromhex(content)))))
        group.spells(book.id(f"bits-{content}-in-a-segment"), f"the content {content} in a segment", octets, value)
        octets = returned(element("28", "02 01 05", element("A2", "03 02 00 A5", indefinite("23", element("03", bytes.fromhex(content))))))
        joined_value = returned_value([None, 5, None, (2, bits_of("00a5", normal))])
        group.spells(book.id(f"bits-{content}-last-of-two"), f"the content {content} in the last of two segments", octets, joined_value)
    for content, what in BAD_BITS.items():
        octets = returned(element("28", "02 01 05", MARK, element("82", bytes.fromhex(content))))
        group.refused(book.id(f"bits-bad-{content or 'empty'}"), what, octets, "BadBits")
        octets = returned(element("28", "02 01 05", MARK, element("A2", "03 01 00", element("03", bytes.fromhex(content)))))
        group.refused(book.id(f"bits-bad-{content or 'empty'}-in-a-segment"), f"{what} in a segment", octets, "BadBits")
    group.spells(book.id("bits-no-segments"), "no segments", returned(element("28", "02 01 05", "A2 00")), returned_value([None, 5, None, (2, Bits(0, b""))]))
    for name, inner in [
        ("short-first", joined("03 02 04 F0", "03 02 00 A5")),
        ("short-first-empty-last", joined("03 02 04 F0", "03 01 00")),
        ("short-in-nested", joined(element("23", "03 02 04 F0"), "23 00")),
        ("short-deep", joined(element("23", element("23", "03 02 01 FE"), "03 01 00"))),
    ]:
        octets = returned(element("28", "02 01 05", MARK, element("A2", inner)))
        group.refused(book.id(f"bits-{name}"), "a segment after one that has unused bits", octets, "BadBits")
    for tag, what in [("04 00", "an OCTET STRING"), ("80 00", "[0]"), ("30 00", "a SEQUENCE")]:
        octets = returned(element("28", element("A2", "03 01 00", MARK, tag)))
        group.refused(book.id(f"bits-segment-{tag.split()[0].lower()}"), f"{what} among the segments", octets, "UnexpectedTag")


def bits_of(*contents):
    """The bits of contents in normal form, of which only the last has unused bits."""
    octets = b"".join(bytes.fromhex(content)[1:] for content in contents)
    return Bits(8 * len(octets) - bytes.fromhex(contents[-1])[0], octets)


def descriptors(book):
    group = book.group("ObjectDescriptor", "Any octets, whole or in segments.", clause="X.690, 8.25")
    for name, content in contents():
        value = returned_value([None, None, content.decode("latin-1"), (1, b"")])
        group.spells(book.id(f"descriptor-{name}-primitive"), f"{name}, primitive", returned(element("28", element("07", content), "81 00")), value)
        for how, inner in segmented(content):
            octets = returned(element("28", element("27", inner), "81 00"))
            group.spells(book.id(f"descriptor-{name}-{how}"), f"{name}, {how.replace('-', ' ')}", octets, value)
    octets = returned(element("28", MARK, "19 00", "81 00"))
    group.refused(book.id("descriptor-as-graphic-string"), "a GraphicString", octets, "UnexpectedTag")


def generals(book):
    group = book.group("GeneralString", "Any octets: escapes and shifts among them.", clause="X.690, 8.23")
    for octet in [0x00, 0x0E, 0x0F, 0x1B, 0x1F, 0x20, 0x7E, 0x7F, 0x80, 0x8E, 0x9B, 0xA0, 0xFF]:
        body = sample(node_of("Lost"))
        body[position("Lost", "note")] = "general", chr(octet)
        octets = element("6F", element("30", HEAD, element("BF 2E", element("1B", bytes([octet])))))
        group.spells(book.id(f"general-{octet:02x}"), f"the octet {octet:02X}", octets, (NAMES[ROOT][1].index("Lost"), body))
    for octet in [0x00, 0x1B, 0x1F, 0x7F, 0x80, 0xE9]:
        octets = element("6F", element("30", HEAD, element("BF 2E", MARK, element("1A", bytes([octet])))))
        group.refused(book.id(f"visible-{octet:02x}"), f"the octet {octet:02X} in a VisibleString", octets, "BadText")


# ---- EXTERNAL


def externals(book):
    parts = book.group("parts of EXTERNAL", "References, a descriptor and one of three encodings.", clause="X.690, 8.18")
    choices = [
        ("direct", bytes([0x2A, 3]), "06 02 2A 03"),
        ("indirect", 5, "02 01 05"),
        ("descriptor", "D", "07 01 44"),
    ]
    encodings = [
        ("asn1", (0, Tree(INTEGER, b"\x05")), element("A0", "02 01 05")),
        ("octets", (1, b"A"), joined("81 01 41")),
        ("bits", (2, Bits(5, b"\xf8")), joined("82 02 03 F8")),
    ]
    for given in product([False, True], repeat=3):
        present = [choice for choice, is_there in zip(choices, given) if is_there]
        for name, value, encoding in encodings:
            external = [value_of if is_there else None for (_, value_of, _), is_there in zip(choices, given)] + [value]
            octets = returned(element("28", *[octets for *_, octets in present], encoding))
            names = "-".join([what for what, *_ in present] + [name])
            parts.spells(book.id(f"external-{names}"), f"EXTERNAL with {names.replace('-', ', ')}", octets, returned_value(external))
        octets = returned(element("28", *[octets for *_, octets in present], MARK))
        names = "-".join([what for what, *_ in present] + ["no-encoding"])
        parts.refused(book.id(f"external-{names}"), f"EXTERNAL with {names.replace('-', ' ')}", octets, "Missing", "External.encoding")
    for name, octets in [
        ("sequence", returned(MARK, element("30", "81 00"))),
        ("set", returned(MARK, element("31", "81 00"))),
        ("primitive-tag", returned(joined(MARK, "08 00"))),
        ("two-encodings", returned(element("28", "81 00", MARK, "82 01 00"))),
        ("order", returned(element("28", "02 01 05", MARK, "06 01 2A", "81 00"))),
        ("encoding-first", returned(element("28", "81 00", MARK, "02 01 05"))),
        ("two-values", returned(element("28", element("A0", "05 00", MARK, "05 00")))),
    ]:
        cause = "WrongForm" if name == "primitive-tag" else "UnexpectedTag"
        parts.refused(book.id(f"external-{name}"), name.replace("-", " "), octets, cause)
    many = book.group("lists of EXTERNAL", "Any number of them.", row="Externals")
    for count in (0, 1, 2, 3, 10, 100):
        external = [None, None, None, (1, b"A")]
        octets = returned(*[element("28", "81 01 41")] * count)
        many.spells(book.id(f"externals-{count}"), f"{count} of them", octets, returned_value(*[external] * count))


# ---- foreign trees


def nest(levels, wrap):
    """A tree of so many levels, each element but the last a SEQUENCE."""
    octets = joined("05 00")
    for _ in range(levels - 1):
        octets = wrap("30", octets)
    return octets


def nested(levels):
    tree = Tree(("universal", 5), b"")
    for _ in range(levels - 1):
        tree = Tree(SEQUENCE, [tree])
    return tree


CLASSES = {"universal": 0x00, "application": 0x40, "context": 0x80, "private": 0xC0}
NUMBERS = [0, 1, 30, 31, 127, 128, 16_383, 16_384, 2_097_151, 2_097_152, 268_435_455]


def foreign(book):
    depth = book.group("levels", f"At most {LEVELS} levels, wherever the tree begins.", limit=f"{LEVELS} levels of a foreign tree")
    for levels in range(1, LEVELS + 1):
        for how, wrap in [("definite", element), ("indefinite", indefinite)]:
            depth.spells(book.id(f"foreign-{levels}-levels-{how}"), f"{levels} levels, {how}", expired(nest(levels, wrap)), expired_value(nested(levels)))
    for count in (1, 2, 5):
        octets = indefinite("74", indefinite("30", HEAD, indefinite("BF 31", indefinite("30", "80 01 01", indefinite("A2", deep(LEVELS, MARK, count))))))
        depth.refused(book.id(f"foreign-{LEVELS + 1}-levels-{count}"), f"{LEVELS + 1} levels", octets, "TooDeep")
    framing(book)
    tree_tags(book)
    kept(book)
    places(book)


def deep(levels, mark, count):
    octets = joined(mark, *["05 00"] * count)
    for _ in range(levels):
        octets = indefinite("30", octets)
    return octets


def tree_tags(book):
    group = book.group("tags", "Any class, number and form; universal 0 primitive is no identifier.", clause="X.690, 8.1.2")
    for name, number, constructed in product(CLASSES, NUMBERS, [False, True]):
        if (name, number, constructed) == ("universal", 0, False):
            continue
        tag = name, number
        octets = Writer().identifier(tag, constructed) + b"\0"
        what = f"{name} {number}, {'constructed' if constructed else 'primitive'}"
        group.spells(book.id(f"foreign-{slug(what).replace(' ', '-').replace(',', '')}"), what, expired(octets), expired_value(Tree(tag, [] if constructed else b"")))
    for octets, what in [
        ("00 00", "universal 0, primitive"),
        ("1F 1E 00", "30 in the high form"),
        ("1F 80 1F 00", "31 with a padding octet"),
        ("DF 81 80 80 80 00 00", "a number of five octets"),
    ]:
        name = slug(what).replace(" ", "-").replace(",", "")
        group.refused(book.id(f"foreign-bad-tag-{name}"), what, expired(MARK, octets), "BadTag")
        group.refused(book.id(f"foreign-bad-tag-{name}-inside"), f"{what}, in a SEQUENCE", expired(element("30", MARK, octets)), "BadTag")


def framing(book):
    group = book.group("lengths", "Lengths become definite and shortest, and nothing else changes.", clause="X.690, 8.1.3 and 10.1")
    tree = Tree(SEQUENCE, [Tree(INTEGER, b"\x05"), Tree(("context", 0), [Tree(OCTETS, b"A")])])
    inside = [element("02", "05"), element("A0", element("04", "41"))]
    forms = [("definite", element), ("indefinite", indefinite)]
    for (outer, wrap), (inner, wrap_in) in product(forms, forms):
        octets = wrap("30", element("02", "05"), wrap_in("A0", element("04", "41")))
        group.spells(book.id(f"foreign-{outer}-{inner}"), f"{outer} round {inner}", expired(octets), expired_value(tree))
    for count in range(1, 127):
        octets = joined("30", bytes([0x80 | count]) + (8).to_bytes(count, "big"), *inside)
        group.spells(book.id(f"foreign-length-in-{count}"), f"a length in {count} octets after the first", expired(octets), expired_value(tree))
    for size in (0, 1, 127, 128, 255, 256, 1000):
        octets = element("04", b"A" * size)
        group.spells(book.id(f"foreign-of-{size}"), f"a content of {size} octets", expired(octets), expired_value(Tree(OCTETS, b"A" * size)))
    for octets, cause, what in [
        ([MARK, "05 80"], "BadLength", "an indefinite primitive"),
        ([MARK, "05 FF"], "BadLength", "the length octet FF"),
        (["30 80", MARK, "00 01"], "BadEnd", "00 01 in an indefinite element"),
        ([element("30", MARK, "04 05 41")], "Overrun", "a content past its parent's end"),
        (["30 80 05 00", MARK], "Overrun", "an element that isn't ended"),
        ([MARK, "30 05"], "Overrun", "a length past the item's end"),
        (["05 00", MARK, "05 00"], "UnexpectedTag", "a second value"),
        (["30 00", MARK, "00 00"], "BadTag", "an end mark after the value"),
    ]:
        group.refused(book.id(f"foreign-{slug(what).replace(' ', '-')}".replace("'", "")), what, expired(*octets), cause)


def kept(book):
    group = book.group("contents", "What the tags say doesn't matter.", clause="X.690, 8.1.4")
    for content, tree, what in [
        ("01 01 05", Tree(("universal", 1), b"\x05"), "TRUE as 05"),
        ("01 00", Tree(("universal", 1), b""), "a BOOLEAN without octets"),
        ("02 02 00 05", Tree(INTEGER, b"\0\x05"), "a padded INTEGER"),
        ("02 00", Tree(INTEGER, b""), "an INTEGER without octets"),
        ("05 01 00", Tree(("universal", 5), b"\0"), "a NULL with an octet"),
        ("06 02 80 01", Tree(("universal", 6), b"\x80\x01"), "an OBJECT IDENTIFIER with a padded number"),
        ("03 02 04 FF", Tree(("universal", 3), b"\x04\xff"), "a BIT STRING with unused bits set"),
        ("03 00", Tree(("universal", 3), b""), "a BIT STRING without octets"),
        ("24 04 04 02 41 42", Tree(OCTETS, [Tree(OCTETS, b"AB")]), "an OCTET STRING in segments"),
        ("3A 03 04 01 4A", Tree(("universal", 26), [Tree(OCTETS, b"J")]), "a VisibleString in segments"),
        ("1A 01 E9", Tree(("universal", 26), b"\xe9"), "a VisibleString with E9"),
        ("31 06 02 01 02 02 01 01", Tree(("universal", 17), [Tree(INTEGER, b"\2"), Tree(INTEGER, b"\1")]), "a SET out of order"),
        ("28 00", Tree(("universal", 8), []), "an empty EXTERNAL"),
        ("28 03 81 01 41", Tree(("universal", 8), [Tree(("context", 1), b"A")]), "an EXTERNAL"),
        ("09 01 40", Tree(("universal", 9), b"\x40"), "a REAL"),
        ("25 00", Tree(("universal", 5), []), "a constructed NULL"),
        ("10 00", Tree(SEQUENCE, b""), "a primitive SEQUENCE"),
    ]:
        name = slug(what).replace(" ", "-")
        group.spells(book.id(f"foreign-kept-{name}"), what, expired(content), expired_value(tree))
        group.spells(book.id(f"foreign-kept-{name}-inside"), f"{what}, in a SEQUENCE", expired(indefinite("30", content)), expired_value(Tree(SEQUENCE, [tree])))


def places(book):
    group = book.group("open types", "Each row whose type is open.", row="open types")
    for node in NODES:
        for i, row in enumerate(ALL_ROWS[node]):
            if row.node != "Any":
                continue
            part = part_name(node, i)
            for name, tree in [("null", Tree(("universal", 5), b"")), ("tree", nested(3)), ("deepest", nested(LEVELS))]:
                value = (i, tree) if node in CHOICES else [*sample(node)[:i], tree, *sample(node)[i + 1 :]]
                apdu = book.around(node, value)
                group.spells(book.id(f"open-{slug(part)}-{name}"), f"{part}: {name}", book.octets_of(apdu), apdu)


# ---- causes


def causes(book):
    firsts = {
        "BadNull": ("the first part of a DAMAGED after its head", damaged(MARK, "81 01 00")),
        "BadOid": ("the first part of a DAMAGED after its head", damaged(MARK, "80 00")),
        "BadBits": ("the first EXTERNAL of a RETURNED", returned(element("28", MARK, "82 00"))),
        "TooDeep": ("level 21 of the first foreign tree", expired(nest(LEVELS + 1, element))),
        "BadText": ("a VisibleString", element("6F", element("30", HEAD, element("BF 2E", MARK, "1A 01 1B")))),
    }
    for cause, (what, octets) in firsts.items():
        if octets.mark is None:
            octets = expired(deep(LEVELS, MARK, 1))
        group = book.group(cause, what, cause=cause)
        group.refused(book.id(f"cause-{cause.lower()}-first"), what, octets, cause)
    last = book.group("last places", "The same at the end of a message of the greatest size.", cause="last places")
    for cause, tail in [("BadNull", damaged_tail("81 01 00")), ("BadOid", damaged_tail("80 00")), ("BadBits", external_tail("82 00"))]:
        last.refused(book.id(f"cause-{cause.lower()}-last"), "at the end of a message of the greatest size", tail, cause)
    order = book.group("which of two", "The tag comes before the level, and the level before the length.", cause="the order of judgement")
    head = joined("74 80 30 80", HEAD, "BF 31 80 30 80 80 01 01 A2 80", *["30 80"] * LEVELS)
    order.refused(book.id("level-21-bad-tag"), "no identifier at level 21", joined(head, MARK, "1F 1E"), "BadTag")
    order.refused(book.id("level-21-without-length"), "no length at level 21", joined(head, MARK, "05"), "TooDeep")
    order.refused(book.id("level-21-cut"), "nothing at level 21", joined(head, MARK), "Truncated")
    cuts = book.group("each cut", "Each front of a message that isn't the whole of it is Truncated at its size.", cause="Truncated")
    whole = indefinite("74", indefinite("30", HEAD, indefinite("BF 31", indefinite("30", "80 01 01", indefinite("A2", nest(3, indefinite))))))
    for size in range(len(whole)):
        cuts.refused(book.id(f"cut-extension-{size}"), f"the first {size} octets of an EXPIRED with an extension", joined(whole[:size], MARK), "Truncated")


def filled(make):
    """The message of the greatest size that is made with a long text."""
    size = LIMIT
    for _ in range(4):
        size += LIMIT - len(make(b"A" * size))
    octets = make(b"A" * size)
    assert len(octets) == LIMIT
    return octets


def large(apdu, *tail):
    """A message of the greatest size, by a long group, with these parts at its end."""

    def make(octets):
        long_group = element("A1", element("A1", element("1B", octets)), "A2 03 1B 01 51")
        service = element("A2", element("A0", element("80", text("20240229"))))
        return element(apdu, element("30", "80 01 02", long_group, service, *tail))

    return filled(make)


def damaged_tail(octets):
    return large("70", element("A5", MARK, octets))


def external_tail(octets):
    return large("6A", element("B1", element("28", MARK, octets)))
