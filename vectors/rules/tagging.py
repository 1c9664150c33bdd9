"""IMPLICIT and EXPLICIT tags, and CHOICE: each row with the other tagging, and each alternative where it may stand."""
from model.encoder import Writer
from model.tables import CHOICES, LISTS, NAMES, ROWS

from rules.book import Book
from rules.messages import Octets, along, around, identifier, octets_of, other, part_name, sample, shortest_way, slug
from rules.octets import MARK, element, joined

KINDS = {"Boolean": "01", "Integer": "02", "Enumerated": "0A", "IsoDate": "1A", "IsoTime": "1A", "PrintableString": "13"}


def books():
    book = Book("tagging", "IMPLICIT and EXPLICIT tags (X.690, 8.14)")
    empty = book.group("EXPLICIT tags round nothing", "An EXPLICIT tag is round one element.", clause="X.690, 8.14")
    bare = book.group("EXPLICIT tags as IMPLICIT ones", "An EXPLICIT tag doesn't replace the tag of the string.", clause="X.690, 8.14")
    twice = book.group("EXPLICIT tags round two elements", "An EXPLICIT tag is round one element.", clause="X.690, 8.14")
    doubled = book.group(
        "IMPLICIT tags as EXPLICIT ones", "An IMPLICIT tag replaces the tag of the element, which isn't inside once more.", clause="X.690, 8.14"
    )
    for node, rows in ROWS.items():
        for i, row in enumerate(rows):
            if row.presence != "LeftOut" and row.mode == "Explicit":
                explicit(empty, bare, twice, node, i)
            elif row.presence != "LeftOut" and row.mode == "Implicit":
                implicit(doubled, node, i)
    yield book
    book = Book("alternatives", "CHOICE (X.690, 8.13): each alternative")
    for node in ROWS:
        if node in CHOICES and node != "IllApdu":
            each_alternative(book, node)
    strings(book)
    yield book


def placed(node, i, octets):
    """A message in which these octets stand in place of a row."""
    if node in CHOICES:
        return octets_of(chosen(node, i, octets))
    entries = sample(node)
    entries[i] = octets
    return octets_of(around(node, entries))


def chosen(node, i, value):
    """The small APDU with an alternative of a choice."""
    return along(shortest_way(node), (i, value))


def explicit(empty, bare, twice, node, i):
    row, part = ROWS[node][i], part_name(node, i)
    inner = Writer().value(row.node, sample(row.node), None)
    octets = placed(node, i, Octets(element(identifier(row), MARK)))
    empty.refused(f"explicit-empty-{slug(part)}", f"the tag of {part} round nothing", octets, "Missing", part)
    octets = placed(node, i, Octets(element(identifier(row), inner, MARK, inner)))
    twice.refused(f"explicit-twice-{slug(part)}", f"the tag of {part} round two elements", octets, "UnexpectedTag")
    if row.node == "IllString":
        octets = placed(node, i, Octets(MARK, element(Writer().identifier(row.tag, False), "41")))
        bare.refused(f"explicit-as-implicit-{slug(part)}", f"{part} with an IMPLICIT tag", octets, "WrongForm")
        octets = placed(node, i, Octets(element(identifier(row), MARK, "04 01 41")))
        bare.refused(f"explicit-as-implicit-segments-{slug(part)}", f"{part} with an IMPLICIT tag, in segments", octets, "UnexpectedTag")


def implicit(group, node, i):
    row, part = ROWS[node][i], part_name(node, i)
    name, comment = f"implicit-as-explicit-{slug(part)}", f"{part} with an EXPLICIT tag"
    if row.node in ROWS:
        octets, cause = doubled(row), "UnexpectedTag"
    else:
        content = Writer().value(row.node, other(row), ("universal", int(KINDS[row.node], 16)))
        is_string = row.node in ("IsoDate", "IsoTime", "PrintableString")
        cause = "UnexpectedTag" if is_string else "WrongForm"
        octets = element(identifier(row), MARK, content) if is_string else joined(MARK, element(identifier(row), content))
    group.refused(name, comment, placed(node, i, Octets(octets)), cause)


def doubled(row):
    """The tag of a row round the SEQUENCE or SEQUENCE OF that it ought to replace."""
    value = sample(row.node)
    contents = Writer().contents(row.node, value)
    if row.node in LISTS and ROWS[row.node][0].node in ROWS:
        # read as a list of one item, whose first part has the wrong tag
        return element(identifier(row), element("30", MARK, contents))
    return element(identifier(row), MARK, element("30", contents))


def each_alternative(book, node):
    title = NAMES[node][0]
    group = book.group(title, f"{title} is one of its alternatives.", row=title)
    parents = [(parent, i) for parent, rows in ROWS.items() for i, row in enumerate(rows) if row.node == node]
    for parent, at in parents:
        place = part_name(parent, at)
        for i, row in enumerate(ROWS[node]):
            name, comment = f"alternative-{slug(place)}-{NAMES[node][1][i]}", f"{place} is a {NAMES[node][1][i]}"
            entries = sample(parent)
            if row.presence == "LeftOut":
                octets = Octets(tagged(parent, at, joined(MARK, identifier(row), "00")))
                bad = octets_of(around(parent, entries[:at] + [octets] + entries[at + 1 :]))
                group.refused(name, f"{comment}, which is left out", bad, "LeftOut", part_name(node, i))
            else:
                apdu = around(parent, entries[:at] + [(i, sample(row.node))] + entries[at + 1 :])
                group.spells(name, comment, octets_of(apdu), apdu)
        bad = Octets(tagged(parent, at, joined(MARK, "BF 64 03 1B 01 41")))
        group.refused(
            f"alternative-{slug(place)}-none",
            f"{place} is no alternative",
            octets_of(around(parent, entries[:at] + [bad] + entries[at + 1 :])),
            "UnexpectedTag",
        )
        first = next(i for i, row in enumerate(ROWS[node]) if row.presence != "LeftOut")
        both = Writer().value(node, (first, sample(ROWS[node][first].node)), None)
        bad = Octets(tagged(parent, at, joined(both, MARK, both)))
        group.refused(
            f"alternative-{slug(place)}-twice",
            f"{place} is two alternatives",
            octets_of(around(parent, entries[:at] + [bad] + entries[at + 1 :])),
            "UnexpectedTag",
        )


def tagged(parent, at, octets):
    """What stands in a row, in the row's tag where it has one."""
    row = ROWS[parent][at]
    return element(identifier(row), octets) if row.tag else octets


def strings(book):
    group = book.group("ILL-String", "ILL-String is a GeneralString or a VisibleString, in each row of that type.", row="ILL-String")
    for node, rows in ROWS.items():
        for i, row in enumerate(rows):
            if row.node == "IllString" and row.presence != "LeftOut":
                apdu = chosen(node, i, ("visible", "A")) if node in CHOICES else None
                if apdu is None:
                    entries = sample(node)
                    entries[i] = "visible", "A"
                    apdu = around(node, entries)
                part = part_name(node, i)
                group.spells(f"alternative-{slug(part)}-visible", f"{part} is a VisibleString", octets_of(apdu), apdu)
