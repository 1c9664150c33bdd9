"""Each row of the tables: there alone, absent among all others, twice, and out of order."""
from model.tables import ALL_LISTS, ALL_ROWS, CHOICES, NAMES, ROWS, default_of

from rules.book import Book
from rules.messages import Builder, Contents, Octets, full, identifier, other, part_name, sample, shortest_way, slug
from rules.octets import MARK, element, joined

PRESENCE = {"Must": "mandatory", "May": "optional", "Default": "with a default", "LeftOut": "left out"}
TYPES = {
    "IsoDate": "ISO-Date",
    "IsoTime": "ISO-Time",
    "IllString": "ILL-String",
    "Boolean": "BOOLEAN",
    "Integer": "INTEGER",
    "Enumerated": "ENUMERATED",
    "Null": "NULL",
    "ObjectIdentifier": "OBJECT IDENTIFIER",
    "OctetString": "OCTET STRING",
    "BitString": "BIT STRING",
    "Any": "of any type",
    "TaggedExternal": "EXTERNAL",
}


def books():
    book = Book("tables", "Each row of the tables, present and absent")
    tables(book, ROWS)
    yield book
    book = Book("sequences", "SEQUENCE and SEQUENCE OF (X.690, 8.9 and 8.10): order, repetition, nothing else")
    group = sequences(book, ROWS)
    apdu = book.around("IllServiceTypes", [3, 1, 2, 1])
    group.spells("items-in-order", "3, 1, 2 and 1 are kept in this order", book.octets_of(apdu), apdu)
    yield book


def tables(book, nodes):
    for node in nodes:
        if node in ALL_LISTS:
            items(book, node)
        elif node not in CHOICES:
            for i in range(len(ALL_ROWS[node])):
                row(book, node, i)


def sequences(book, nodes):
    """The test vectors of the order of parts. Returns the group of lists."""
    order(book, nodes)
    strangers(book, nodes)
    group = lists(book, nodes)
    empty(book, nodes)
    return group


def words(node, i):
    """A row of the tables in words."""
    row = ALL_ROWS[node][i]
    name = type_name(row.node)
    if row.presence == "LeftOut":
        return f"left out, [{row.tag[1]}]"
    default = default_of(row)
    presence = PRESENCE[row.presence] + ("" if default is None else f" {default if not isinstance(default, bool) else str(default).upper()}")
    return f"{presence}, {f'[{row.tag[1]}] {tagging(row)} ' if row.tag else ''}{name}"


def tagging(row):
    return "IMPLICIT" if row.mode == "Implicit" else "EXPLICIT"


def type_name(node):
    if node in ALL_LISTS and not NAMES[node][0]:
        return f"SEQUENCE OF {type_name(ALL_ROWS[node][0].node)}"
    return TYPES.get(node) or NAMES.get(node, (node,))[0] or node


def where(node, root):
    """Where the node stands in the messages of its rows."""
    names = [NAMES[parent][1][i] for parent, i in shortest_way(node, root)[1:] if NAMES[parent][1][i]]
    return f" in {' '.join(names)}" if names else ""


def row(book, node, i):
    row, part = ALL_ROWS[node][i], part_name(node, i)
    group = book.group(part, words(node, i), row=part)
    name = book.id(f"row-{slug(part)}")
    pieces, every = written(node, sample(node)), written(node, full(node))
    if row.presence == "LeftOut":
        octets = [*pieces[:i], MARK, joined(identifier(row), "00"), *pieces[i + 1 :]]
        group.refused(f"{name}-present", f"{part} is left out", whole(book, node, octets), "LeftOut", part)
    else:
        entries = sample(node)
        entries[i] = other(row)
        apdu = book.around(node, entries)
        group.spells(f"{name}-present", f"{part}, and of the other parts only the mandatory ones", book.octets_of(apdu), apdu)
    if row.presence != "Must":
        entries = full(node)
        entries[i] = default_of(row)
        octets = whole(book, node, [*every[:i], *every[i + 1 :]])
        group.spells(f"{name}-absent", f"each part but {part}", octets, book.around(node, entries))
        return
    if any(every[i + 1 :]):
        octets = whole(book, node, [*every[:i], MARK, *every[i + 1 :]])
        group.refused(f"{name}-absent", f"each part but {part}, and the next one isn't due", octets, "UnexpectedTag")
    group.refused(f"{name}-absent-at-end", f"the sequence ends before {part}", whole(book, node, [*every[:i], MARK]), "Missing", part)


def written(node, entries):
    """The octets of each entry of a sequence; none of one that is absent."""
    return [b"" if entry is None else Builder().row(row, entry) for row, entry in zip(ALL_ROWS[node], entries)]


def whole(book, node, pieces):
    """A message in which a sequence has these contents."""
    return book.octets_of(book.around(node, Contents(*pieces)))


def items(book, node):
    (row,) = ALL_ROWS[node]
    parent, i = shortest_way(node, book.root)[-1]
    title = f"{part_name(parent, i)}.item"
    group = book.group(title, f"any number of {type_name(row.node)}", row=title)
    name = book.id(f"row-{slug(title)}")
    for count, what in [(1, "present"), (0, "absent"), (2, "present-twice")]:
        apdu = book.around(node, sample(node) * count)
        group.spells(f"{name}-{what}", f"a list of {count} {'item' if count == 1 else 'items'}", book.octets_of(apdu), apdu)


def of_rows(nodes):
    """The nodes that are sequences."""
    return [node for node in nodes if node not in CHOICES and node not in ALL_LISTS]


def order(book, nodes):
    twice = book.group("a part twice", "Each part stands at most once.", clause="X.690, 8.9.2")
    swapped = book.group("parts in order", "The parts stand in the order of the module.", clause="X.690, 8.9.2")
    for node in of_rows(nodes):
        rows = ALL_ROWS[node]
        least, every = written(node, sample(node)), written(node, full(node))
        for i, row in enumerate(rows):
            if row.presence == "LeftOut":
                continue
            part = part_name(node, i)
            octets = whole(book, node, [*least[:i], every[i], MARK, every[i], *least[i + 1 :]])
            twice.refused(book.id(f"twice-{slug(part)}"), f"{part} twice", octets, "UnexpectedTag")
            j = next((j for j in range(i + 1, len(rows)) if every[j]), None)
            if j is not None:
                first, second = (MARK, b"") if row.presence == "Must" else (b"", MARK)
                octets = whole(book, node, [*least[:i], first, every[j], second, every[i], *least[j + 1 :]])
                swapped.refused(book.id(f"swapped-{slug(part)}"), f"{NAMES[node][1][j]} before {part}", octets, "UnexpectedTag")


def strangers(book, nodes):
    group = book.group("parts of no row", "A sequence has the parts of its rows, and nothing else.", clause="X.690, 8.9.2")
    for node in of_rows(nodes):
        least, name = written(node, sample(node)), slug(NAMES[node][0])
        for tag, what in [("9F 64", "[100]"), ("05", "a NULL"), ("30", "a SEQUENCE")]:
            octets = whole(book, node, [*least, MARK, joined(tag, "00")])
            comment = f"{what} at the end of {NAMES[node][0]}{where(node, book.root)}"
            group.refused(book.id(f"stranger-{tag.replace(' ', '').lower()}-in-{name}"), comment, octets, "UnexpectedTag")


def lists(book, nodes):
    group = book.group("items of lists", "A SEQUENCE OF is any number of items of one type, in their order.", clause="X.690, 8.10")
    for node in sorted(set(nodes) & ALL_LISTS):
        (row,), name = ALL_ROWS[node], slug(part_name(*shortest_way(node, book.root)[-1]))
        for count in (0, 1, 2, 3, 100):
            apdu = book.around(node, sample(node) * count)
            comment = f"a list of {count} {'item' if count == 1 else 'items'}"
            group.spells(book.id(f"items-{name}-{count}"), comment, book.octets_of(apdu), apdu)
        item = Builder().row(row, sample(row.node))
        for tag, what in [("A0", "[0]"), ("04", "an OCTET STRING"), ("02", "an INTEGER"), ("31", "a SET")]:
            if bytes(item)[:1] == bytes(joined(tag)):
                continue
            octets = book.octets_of(book.around(node, Contents(item, MARK, tag, "00")))
            group.refused(book.id(f"items-{name}-{tag.lower()}"), f"{what} among the items", octets, "UnexpectedTag")
    return group


def empty(book, nodes):
    group = book.group("empty sequences", "An optional sequence without parts isn't an absent one.", clause="X.690, 8.9.3")
    for node in of_rows(nodes):
        for i, row in enumerate(ALL_ROWS[node]):
            if row.presence == "May" and row.mode == "Implicit" and may_be_empty(row.node):
                entries, part = sample(node), part_name(node, i)
                octets = book.octets_of(book.around(node, entries[:i] + [Octets(element(identifier(row)))] + entries[i + 1 :]))
                entries[i] = [default_of(inner) for inner in ALL_ROWS[row.node]]
                group.spells(book.id(f"empty-{slug(part)}"), f"{part} without parts", octets, book.around(node, entries))


def may_be_empty(node):
    """Whether a sequence of the node may have no parts."""
    is_sequence = node in ALL_ROWS and node not in ALL_LISTS
    return is_sequence and not any(row.presence == "Must" for row in ALL_ROWS[node])
