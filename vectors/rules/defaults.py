"""DEFAULT values, written and not."""
from model.encoder import Writer
from model.tables import ROWS, default_of

from rules.book import Book
from rules.messages import OPTIONAL_MESSAGES, REQUEST_VALUE, TYPES, Octets
from rules.messages import around, message, octets_of, other, part_name, request, sample, slug, with_head
from rules.octets import MARK, element, indefinite


def books():
    book = Book("defaults", "DEFAULT values (X.690, 8.9.3 and 11.5)")
    for node, rows in ROWS.items():
        for i, row in enumerate(rows):
            if row.presence == "Default":
                each(book, node, i)
    together(book)
    yield book


def each(book, node, i):
    row, part = ROWS[node][i], part_name(node, i)
    default, name = default_of(row), f"default-{slug(part)}"
    shown = str(default).upper() if isinstance(default, bool) else default
    text = f"{part} is {shown} where it isn't written. It may be written, too; the normal form doesn't have it."
    group = book.group(f"{part} = {shown}", text, row=part)
    entries = sample(node)

    def with_entry(entry):
        return around(node, entries[:i] + [entry] + entries[i + 1 :])

    group.spells(f"{name}-not-written", "the default isn't written", octets_of(with_entry(Octets())), with_entry(default))
    contents = ["FF", "01", "80"] if default is True else ["00"] if default is False else [f"{default:02X}"]
    for content in contents:
        octets = octets_of(with_entry(Octets(Writer().identifier(row.tag, False), "01", content)))
        group.spells(f"{name}-written-{content.lower()}", f"the default is written, as {content}", octets, with_entry(default))
    octets = octets_of(with_entry(Octets(element(Writer().identifier(row.tag, False), contents[0], form=lambda size: b"\x81" + bytes([size])))))
    group.spells(f"{name}-written-long", "the default is written, with a length in the long form", octets, with_entry(default))
    for value in [other(row)] if isinstance(default, bool) else [default + 1, 0, -1, default + 256]:
        sign = "minus-" if value < 0 else ""
        what = str(value).lower() if isinstance(value, bool) else f"{sign}{abs(value)}"
        group.spells(f"{name}-{what}", "another value than the default", octets_of(with_entry(value)), with_entry(value))
    bad = Octets(MARK, Writer().identifier(row.tag, False), "00")
    cause = "BadBoolean" if isinstance(default, bool) else "BadInteger"
    group.refused(f"{name}-empty", "a written default has a content", octets_of(with_entry(bad)), cause)


def together(book):
    group = book.group("defaults together", "Each default is written or not, whatever the others are.", clause="X.690, 11.5")
    parts = [("85 01 01", 0), ("8E 01 03", 1), ("95 01 00", 2), ("96 01 00", 3)]
    for choice in range(16):
        there = [octets if choice >> bit & 1 else "" for octets, bit in parts]
        octets = message("ILL-Request", there[0], TYPES, OPTIONAL_MESSAGES, there[1], "B0 00", there[2], there[3])
        what = " ".join(filter(None, there)) or "none"
        group.valid(
            f"defaults-of-a-request-{choice:04b}",
            f"of an ILL-REQUEST's defaults these are written: {what}",
            octets,
            "ILL-Request",
            with_head(REQUEST_VALUE),
        )
    octets = request(beside="B4 06 80 01 00 85 01 02")
    value = with_head({**REQUEST_VALUE, "third-party-info-type": {}})
    group.valid(
        "defaults-leave-an-empty-sequence",
        "a Third-Party-Info of defaults alone is an empty sequence, not an absent one",
        octets,
        "ILL-Request",
        value,
    )
    octets = request(beside="B2 09 82 01 00 83 01 00 84 01 00")
    value = with_head({**REQUEST_VALUE, "cost-info-type": {}})
    group.valid("defaults-leave-an-empty-cost-info", "a Cost-Info of defaults alone is an empty sequence", octets, "ILL-Request", value)
    octets = request(beside=indefinite("B4", "80 01 FF 85 01 02"))
    value = with_head({**REQUEST_VALUE, "third-party-info-type": {"permission-to-forward": True}})
    group.valid("defaults-one-of-two", "a default beside a part that isn't its default", octets, "ILL-Request", value)
