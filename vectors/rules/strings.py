"""Strings: segments and alphabets."""
from model.encoder import Writer
from model.tables import ROWS

from rules.book import Book
from rules.messages import HEAD_VALUE, Octets, around, expired, message, octets_of, part_name, sample, slug, with_group, with_head
from rules.octets import MARK, element, indefinite, joined, of, text

PRINTABLE = "ABCDEFGHIJKLMNOPQRSTUVWXYZabcdefghijklmnopqrstuvwxyz0123456789 '()+,-./:=?"


def books():
    book = Book("strings", "Strings (X.690, 8.7 and 8.23): segments and alphabets")
    jones(book)
    segments(book)
    tags(book)
    general(book)
    visible(book)
    printable(book)
    each_string(book)
    yield book


def of_group(*pieces):
    """An EXPIRED with this element for its transaction-group-qualifier."""
    return expired(group=element("A1", *pieces))


def jones(book):
    group = book.group("the example Jones", "A string is primitive, or in segments in definite or indefinite form.", clause="X.690, 8.23.6")
    for kind, tag in [("visible", "1A"), ("general", "1B")]:
        constructed, value = f"{int(tag, 16) | 0x20:02X}", with_group(**{kind: "Jones"})
        segments = joined("04 03 4A 6F 6E 04 02 65 73")
        group.valid(f"string-jones-{kind}-primitive", f"{tag} 05 4A 6F 6E 65 73", of_group(tag, "05 4A 6F 6E 65 73"), "Expired", value)
        group.valid(f"string-jones-{kind}-segments", f"{constructed} 09 and two segments", of_group(constructed, "09", segments), "Expired", value)
        group.valid(
            f"string-jones-{kind}-indefinite",
            f"{constructed} 80, two segments and 00 00",
            of_group(constructed, "80", segments, "00 00"),
            "Expired",
            value,
        )


def segments(book):
    group = book.group(
        "segments",
        "A string in constructed form is any number of segments, each of any size, in either form. Its octets are theirs, joined.",
        clause="X.690, 8.7.3",
    )
    for name, pieces, said in [
        ("none", "", ""),
        ("one-empty", "04 00", ""),
        ("one", "04 01 47", "G"),
        ("empty-before", "04 00 04 01 47", "G"),
        ("empty-after", "04 01 47 04 00", "G"),
        ("empty-between", "04 01 47 04 00 04 01 48", "GH"),
        ("three", "04 01 47 04 02 48 49 04 01 4A", "GHIJ"),
        ("constructed", "24 03 04 01 47", "G"),
        ("constructed-empty", "24 00", ""),
        ("constructed-indefinite", "24 80 04 01 47 00 00", "G"),
        ("constructed-between", "04 01 47 24 06 04 01 48 04 01 49 04 01 4A", "GHIJ"),
        ("nested", "24 07 24 05 24 03 04 01 47", "G"),
        ("nested-empty", "24 04 24 02 24 00", ""),
        ("nested-in-turn", "24 80 04 01 47 24 05 04 01 48 24 00 00 00 04 01 49", "GHI"),
    ]:
        group.valid(
            f"segments-{name}", f"segments {pieces}" if pieces else "no segments", of_group(element("3B", pieces)), "Expired", with_group(said)
        )
        group.valid(
            f"segments-{name}-in-indefinite",
            f"{f'segments {pieces}' if pieces else 'no segments'} in an indefinite string",
            of_group(indefinite("3B", pieces)),
            "Expired",
            with_group(said),
        )
    many = "".join(f"04 01 {octet:02X}" for octet in range(0x20, 0x7F))
    group.valid(
        "segments-of-one-octet-each",
        "95 segments of one octet",
        of_group(element("3B", many)),
        "Expired",
        with_group("".join(map(chr, range(0x20, 0x7F)))),
    )
    group.valid(
        "segments-1000", "1000 segments of one octet", of_group(indefinite("3B", joined("04 01 41") * 1000)), "Expired", with_group("A" * 1000)
    )
    group.valid(
        "segments-long-lengths",
        "segments with lengths in the long form",
        of_group(element("3B", element("04", "47", form=of(1)), element("04", "48", form=of(9)))),
        "Expired",
        with_group("GH"),
    )
    group.valid(
        "segments-octets-that-look-like-elements",
        "a segment whose octets look like an end mark and a header",
        of_group(indefinite("3B", "04 05 00 00 04 01 47")),
        "Expired",
        with_group("\0\0\x04\x01G"),
    )
    group = book.group(
        "segments of the part that may be split anywhere", "A segment may end in the middle of what the text says.", clause="X.690, 8.7.3"
    )
    for cut in range(1, 8):
        date = "20240229"
        octets = expired(date=element("A0", element("04", text(date[:cut])), element("04", text(date[cut:]))))
        group.valid(f"segments-of-a-date-{cut}", f"a date cut after {cut} of its digits", octets, "Expired", HEAD_VALUE)
    octets = expired(date=element("A0", *(element("04", text(digit)) for digit in "20240229")))
    group.valid("segments-of-a-date-each", "a segment for each digit of a date", octets, "Expired", HEAD_VALUE)
    value = with_head(date_returned="20240229", insured_for={"currency-code": "USD", "monetary-value": "12.50"})
    amount = joined("BF 27", element("", element("A0", "04 02 55 53 04 01 44"), element("A1", indefinite("24", "04 02 31 32"), "04 03 2E 35 30")))
    group.valid(
        "segments-of-an-amount",
        "a currency-code and a monetary-value in segments",
        message("Returned", element("9F 25", text("20240229")), amount),
        "Returned",
        value,
    )


def tags(book):
    group = book.group(
        "tags of segments", "A segment has the tag of an OCTET STRING, universal 4, whatever the string's tag is.", clause="X.690, 8.23.6"
    )
    for tag, what in [
        ("1B", "GeneralString"),
        ("1A", "VisibleString"),
        ("13", "PrintableString"),
        ("0C", "UTF8String"),
        ("03", "BIT STRING"),
        ("02", "INTEGER"),
        ("05", "NULL"),
        ("30", "SEQUENCE"),
        ("84", "[4]"),
        ("A1", "[1]"),
    ]:
        for string, kind in [("3B", "general"), ("3A", "visible")]:
            octets = of_group(element(string, MARK, element(tag, "47")))
            group.refused(
                f"segment-with-tag-{tag.lower()}-in-{kind}",
                f"a segment with the tag of {what} in a {kind.capitalize()}String",
                octets,
                "UnexpectedTag",
            )
    octets = of_group(element("3B", "04 01 47", MARK, "1B 01 48"))
    group.refused("segment-second-with-the-strings-tag", "the second segment has the string's tag", octets, "UnexpectedTag")
    octets = of_group(element("3B", element("24", MARK, "1B 01 47")))
    group.refused("segment-inner-with-the-strings-tag", "a segment in a segment has the string's tag", octets, "UnexpectedTag")
    octets = of_group(element("3B", element("24", MARK, "3B 03 04 01 47")))
    group.refused("segment-inner-string", "a string in segments in a segment", octets, "UnexpectedTag")
    group.refused(
        "segment-of-a-date-with-visible-tag",
        "a date's segment has VisibleString's tag",
        expired(date=element("A0", MARK, "1A 08", text("20240229"))),
        "UnexpectedTag",
    )
    group.refused(
        "segment-of-a-date-with-its-own-tag",
        "a date's segment has the date's tag",
        expired(date=element("A0", MARK, "80 08", text("20240229"))),
        "UnexpectedTag",
    )
    group = book.group("tags of strings", "An ILL-String is a GeneralString or a VisibleString, which are two values.", clause="X.690, 8.13")
    group.valid("string-general", "GeneralString G", of_group("1B 01 47"), "Expired", with_group("G"))
    group.valid("string-visible", "VisibleString G", of_group("1A 01 47"), "Expired", with_group(visible="G"))
    for tag, what in [
        ("04", "OCTET STRING"),
        ("0C", "UTF8String"),
        ("12", "NumericString"),
        ("13", "PrintableString"),
        ("14", "TeletexString"),
        ("16", "IA5String"),
        ("19", "GraphicString"),
        ("1C", "UniversalString"),
        ("1E", "BMPString"),
        ("24", "OCTET STRING in segments"),
        ("33", "PrintableString in segments"),
    ]:
        octets = of_group(MARK, element(tag, "47"))
        group.refused(f"string-with-tag-{tag.lower()}", f"{what} for an ILL-String", octets, "UnexpectedTag")


def general(book):
    group = book.group("GeneralString", "Its octets are any but SO, SI and ESC (0E, 0F, 1B).", limit="octets of a GeneralString")
    octets = bytes(octet for octet in range(256) if octet not in (0x0E, 0x0F, 0x1B))
    group.valid(
        "general-all-octets", "each octet that there may be", of_group(element("1B", octets)), "Expired", with_group(octets.decode("latin-1"))
    )
    for octet in (0x00, 0x09, 0x0A, 0x0D, 0x10, 0x1A, 0x1C, 0x1F, 0x20, 0x7E, 0x7F, 0x80, 0x9B, 0xA0, 0xE9, 0xFF):
        group.valid(f"general-octet-{octet:02x}", f"the octet {octet:02X}", of_group("1B 01", bytes([octet])), "Expired", with_group(chr(octet)))
    for octet in (0x0E, 0x0F, 0x1B):
        bad_octet(group, "general", "1B", octet)


def bad_octet(group, kind, tag, octet):
    """The octet alone, first, last, and in segments."""
    constructed, one = f"{int(tag, 16) | 0x20:02X}", bytes([octet])
    for name, pieces in [
        ("alone", element(tag, one)),
        ("first", element(tag, one, "41 42")),
        ("last", element(tag, "41 42", one)),
        ("in-a-segment", element(constructed, "04 01 41", element("04", one))),
        ("in-an-inner-segment", element(constructed, "04 01 41", indefinite("24", element("04", one)))),
    ]:
        group.refused(f"{kind}-octet-{octet:02x}-{name}", f"the octet {octet:02X} {name.replace('-', ' ')}", of_group(MARK, pieces), "BadText")


def visible(book):
    group = book.group("VisibleString", "Its octets are 20 to 7E.", limit="octets of a VisibleString")
    octets = bytes(range(0x20, 0x7F))
    group.valid("visible-all-octets", "each octet that there may be", of_group(element("1A", octets)), "Expired", with_group(visible=octets.decode()))
    for octet in (0x20, 0x7E):
        group.valid(
            f"visible-octet-{octet:02x}", f"the octet {octet:02X}", of_group("1A 01", bytes([octet])), "Expired", with_group(visible=chr(octet))
        )
    group.valid("visible-empty", "no octets", of_group("1A 00"), "Expired", with_group(visible=""))
    for octet in (0x1F, 0x7F):
        bad_octet(group, "visible", "1A", octet)
    for octet in (0x00, 0x09, 0x0A, 0x0D, 0x0E, 0x1B, 0x80, 0xA0, 0xE9, 0xFF):
        group.refused(f"visible-octet-{octet:02x}", f"the octet {octet:02X}", of_group(MARK, "1A 01", bytes([octet])), "BadText")


def amount(*pieces):
    return message("Returned", element("9F 25", text("20240229")), element("BF 27", *pieces))


def printable(book):
    group = book.group("PrintableString", "Its octets are letters, digits, space and ' ( ) + , - . / : = ?", limit="octets of a PrintableString")
    said = with_head(date_returned="20240229", insured_for={"monetary-value": PRINTABLE})
    group.valid("printable-all-octets", "each octet that there may be", amount(element("81", text(PRINTABLE))), "Returned", said)
    group.valid("printable-empty", "no octets", amount("81 00"), "Returned", with_head(date_returned="20240229", insured_for={"monetary-value": ""}))
    for octet in (*range(0x20, 0x7F), 0x00, 0x0A, 0x1B, 0x1F, 0x7F, 0x80, 0xC1, 0xE9, 0xFF):
        if chr(octet) not in PRINTABLE:
            group.refused(f"printable-octet-{octet:02x}", f"the octet {octet:02X}", amount(MARK, "81 01", bytes([octet])), "BadText")
    octets = amount(MARK, element("A1", "04 01 31", "24 03 04 01 2A"))
    group.refused("printable-octet-2a-in-an-inner-segment", "the octet 2A in a segment in a segment", octets, "BadText")
    octets = amount(MARK, element("80", text("US$")), element("81", text("1")))
    group.refused("printable-in-currency-code", "$ in a currency-code", octets, "BadText")


def each_string(book):
    group = book.group(
        "each PrintableString, date and time", "Each row of these types may be in segments, under its own IMPLICIT tag.", clause="X.690, 8.14"
    )
    for node, rows in ROWS.items():
        for i, row in enumerate(rows):
            if row.node in ("PrintableString", "IsoDate", "IsoTime"):
                entries, part = sample(node), part_name(node, i)
                content = text(sample(row.node))
                octets = element(Writer().identifier(row.tag, True), element("04", content[:1]), indefinite("24", element("04", content[1:])))
                apdu = around(node, entries[:i] + [sample(row.node)] + entries[i + 1 :])
                octets = octets_of(around(node, entries[:i] + [Octets(octets)] + entries[i + 1 :]))
                group.spells(f"string-{slug(part)}-in-segments", f"{part} in segments", octets, apdu)
