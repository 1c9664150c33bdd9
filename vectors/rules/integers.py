"""INTEGER and ENUMERATED contents."""
from model.encoder import Writer, whole
from model.tables import ROWS

from rules.book import Book
from rules.messages import REQUEST_VALUE, Octets, around, expired, octets_of, part_name, request, sample, slug, with_head
from rules.octets import MARK, element, joined

# the least and the greatest number of each size, and those about zero
GREATEST = [2 ** (8 * n - 1) - 1 for n in range(1, 9)]
EDGES = sorted({0, 1, -1, 2, 300, *GREATEST, *(n + 1 for n in GREATEST[:-1]), *(-n - 1 for n in GREATEST), *(-n - 2 for n in GREATEST[:-1])})
PADDED = ["00 00", "00 01", "00 7F", "FF FF", "FF 80", "00 00 80", "FF FF 7F", "FF FF FF FF FF FF FF FF", "00 7F FF FF FF FF FF FF"]
KINDS = {"integer": "an INTEGER", "enumerated": "an ENUMERATED"}


def books():
    book = Book("integers", "INTEGER and ENUMERATED contents (X.690, 8.3 and 8.4)")
    group = book.group("two's complement", "The content is the number in two's complement.", clause="X.690, 8.3.3")
    both(
        group, "integer", lambda content: expired(version=element("80", content)), lambda number: ("Expired", with_head(protocol_version_num=number))
    )
    group = book.group("two's complement of an ENUMERATED", "The content is that of an INTEGER. Any number is read.", clause="X.690, 8.4")
    both(group, "enumerated", listed, lambda number: ("ILL-Request", with_head({**REQUEST_VALUE, "ill-service-type": [number]})))
    group = book.group("fewest octets", "Of two octets or more, the first nine bits aren't all equal.", clause="X.690, 8.3.2")
    for kind, make in [
        ("integer", lambda content: expired(version=joined(MARK, element("80", content)))),
        ("enumerated", lambda content: listed(content, MARK)),
    ]:
        for content in PADDED:
            name = content.replace(" ", "").lower()
            group.refused(f"content-{kind}-padded-{name}", f"{KINDS[kind]} of {content}", make(content), "BadInteger")
        group.refused(f"content-{kind}-empty", f"{KINDS[kind]} without content", make(""), "BadInteger")
    group = book.group(
        "octets of a number",
        "A number has at most eight octets, here. Of nine or more with equal first bits BadInteger is the cause.",
        limit="octets of a number: 8",
    )
    for kind, make in [
        ("integer", lambda content: expired(version=joined(MARK, element("80", content)))),
        ("enumerated", lambda content: listed(content, MARK)),
    ]:
        for name, content, cause in [
            ("nine-octets", "01" + " 00" * 8, "IntegerTooLong"),
            ("nine-octets-of-2-63", "00 80" + " 00" * 7, "IntegerTooLong"),
            ("nine-octets-below-minus-2-63", "FF 7F" + " FF" * 7, "IntegerTooLong"),
            ("nine-octets-negative", "80" + " 00" * 8, "IntegerTooLong"),
            ("nine-zeros", "00" * 9, "BadInteger"),
            ("nine-ones", "FF" * 9, "BadInteger"),
            ("sixteen-octets", "01" * 16, "IntegerTooLong"),
            ("300-octets", "01" * 300, "IntegerTooLong"),
        ]:
            group.refused(f"content-{kind}-{name}", f"{KINDS[kind]} of {len(bytes.fromhex(content))} octets from {content[:5]}", make(content), cause)
    group = book.group(
        "each number",
        "Each row of type INTEGER or ENUMERATED has numbers of one to eight octets, whatever the module names.",
        clause="X.690, 8.3 and 8.4",
    )
    for node, rows in ROWS.items():
        for i, row in enumerate(rows):
            if row.node in ("Integer", "Enumerated") and row.tag:
                each(group, node, i)
    yield book


def both(group, kind, make, said):
    for number in EDGES:
        apdu, value = said(number)
        sign = "minus-" if number < 0 else ""
        group.valid(f"content-{kind}-{sign}{abs(number)}", f"the number {number}", make(whole(number).hex()), apdu, value)


def listed(content, mark=b""):
    """An ILL-REQUEST with one service type of this content."""
    return request(element("A9", mark, element("0A", content)))


def each(group, node, i):
    row, entries, part = ROWS[node][i], sample(node), part_name(node, i)
    for number in (0, -(2**63), 2**63 - 1):
        name = f"{slug(part)}-{'zero' if not number else 'least' if number < 0 else 'greatest'}"
        apdu = around(node, entries[:i] + [number] + entries[i + 1 :])
        group.spells(f"number-{name}", f"{part} is {number}", octets_of(apdu), apdu)
    bad = Octets(MARK, Writer().identifier(row.tag, False), "02 00 01")
    group.refused(f"number-{slug(part)}-padded", f"{part} is 00 01", octets_of(around(node, entries[:i] + [bad] + entries[i + 1 :])), "BadInteger")
