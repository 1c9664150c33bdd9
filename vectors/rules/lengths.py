"""Length octets: the short form, the long forms, the lengths of DER, and octets that are no length."""
from rules.book import Book
from rules.messages import HEAD, HEAD_VALUE, expired, with_group
from rules.octets import MARK, element, fixed, indefinite, joined, of, text
from rules.places import ALL, PRIMITIVE


def books():
    book = Book("lengths", "Length octets (X.690, 8.1.3 and 10.1)")
    short(book)
    each_count(book)
    each_kind(book)
    least(book)
    too_great(book)
    bad(book)
    cut(book)
    yield book


def short(book):
    group = book.group("short form", "A length up to 127 may be the one octet.", clause="X.690, 8.1.3.4")
    for size in (0, 1, 2, 126, 127):
        octets = expired(group=element("A1", element("1B", text("A" * size))))
        group.valid(f"length-short-{size}", f"a text of {size} octets", octets, "Expired", with_group("A" * size))
    group.valid("length-short-empty-sequence", "a SEQUENCE without parts", expired("A3 00"), "Expired", {**HEAD_VALUE, "requester-id": {}})


def each_count(book):
    group = book.group(
        "number of length octets",
        "The long form has 1 to 126 octets after the first, with leading zeros where the sender likes.",
        clause="X.690, 8.1.3.5",
    )
    for count in range(1, 127):
        octets = element("74", element("30", HEAD), form=of(count))
        group.valid(f"length-octets-{count}", f"the length of an APDU, 31, in {count} octets after the first", octets, "Expired", HEAD_VALUE)


def each_kind(book):
    group = book.group("long form of each element", "Each element may have the long form.", clause="X.690, 8.1.3.5")
    for kind, (what, make, (apdu, value)) in ALL.items():
        for count in (1, 2, 4, 8, 126):
            octets = make(lambda *parts: element(*parts, form=of(count)))
            comment = f"the length of {what} in {count} {'octet' if count == 1 else 'octets'} after the first"
            group.valid(f"length-of-{kind}-in-{count}", comment, octets, apdu, value)
    octets = joined("74 81 29 30 81 26 80 81 01 02 A1 81 0E A1 81 04 1B 81 01 47 A2 81 04 1B 81 01 51 A2 81 0E A0 81 0B 80 81 08", text("20240229"))
    group.valid("length-of-all-in-1", "each length of an EXPIRED in one octet after the first", octets, "Expired", HEAD_VALUE)


def least(book):
    group = book.group("shortest lengths", "The normal form has the fewest length octets.", clause="X.690, 10.1")
    for size in (127, 128, 255, 256, 65535, 65536):
        octets = expired(group=element("A1", element("3B", element("04", text("A" * size)))))
        group.valid(f"length-least-of-text-{size}", f"a text of {size} octets, one segment", octets, "Expired", with_group("A" * size))
    parts = {
        "explicit-tag": lambda n: len(element("1B", bytes(n))),
        "implicit-sequence": lambda n: len(element("A1", element("1B", bytes(n)))) + 5,
        "sequence": lambda n: len(expired_of(n)[1]),
        "apdu": lambda n: len(expired_of(n)[0]),
    }
    for kind, size_of in parts.items():
        for wanted in (127, 128, 255, 256, 65535, 65536):
            count = next((n for n in range(max(0, wanted - 64), wanted) if size_of(n) == wanted), None)
            if count is not None:
                what = f"the contents of {ALL[kind][0]} have {wanted} octets in the normal form"
                octets = expired(group=indefinite("A1", indefinite("3B", element("04", text("A" * count), form=of(4)))))
                group.valid(f"length-least-of-{kind}-{wanted}", what, octets, "Expired", with_group("A" * count))


def expired_of(count):
    """The contents of an EXPIRED with a group qualifier of this many octets, and those of its SEQUENCE."""
    inner = joined("80 01 02", element("A1", element("A1", element("1B", bytes(count))), "A2 03 1B 01 51"), "A2 0C A0 0A 80 08", text("20240229"))
    return element("30", inner), inner


def too_great(book):
    group = book.group(
        "great lengths",
        "A length is the number that all its octets say, however great; it passes what is round it.",
        clause="X.690, 8.1.3.5",
    )
    for name, octets, what in [
        ("modulo-2-32", "85 01 00 00 00", "the right one modulo 2 to the power 32"),
        ("modulo-2-64", "89 01 00 00 00 00 00 00 00", "the right one modulo 2 to the power 64"),
        ("modulo-2-128", "91 01" + " 00" * 15, "the right one modulo 2 to the power 128"),
        ("high-bit-32", "84 80 00 00", "negative where 32 bits are read as a signed number"),
        ("all-ones-32", "84 FF FF FF", "near 2 to the power 32"),
        ("all-ones-64", "88" + " FF" * 7, "near 2 to the power 64"),
        ("all-ones-126", "FE" + " FF" * 125, "the greatest that there is, but for its last octet"),
    ]:
        bad = joined(MARK, "74", octets, "1F", element("30", HEAD))
        group.refused(f"length-of-apdu-{name}", f"the length of an APDU is {what}", bad, "TooLong")
        bad = element("74", MARK, "30", octets, "1D", HEAD)
        group.refused(f"length-of-sequence-{name}", f"the length of a SEQUENCE is {what}", bad, "Overrun")
        bad = expired(version=joined(MARK, "80", octets, "01 02"))
        group.refused(f"length-of-integer-{name}", f"the length of an INTEGER is {what}", bad, "Overrun")
        bad = indefinite("74", indefinite("30", MARK, "80", octets, "01 02"))
        group.refused(f"length-of-integer-in-indefinite-{name}", f"the length of an INTEGER in indefinite elements is {what}", bad, "TooLong")
    group = book.group("lengths that pass the element round them", "An element ends within the definite elements round it.", clause="X.690, 8.1.1.3")
    for kind, (what, make, _) in ALL.items():
        if kind not in ("apdu", "bare-apdu"):
            octets = make(lambda identifier, *parts: joined(MARK, identifier, bytes([len(joined(*parts)) + 64]), *parts))
            group.refused(f"length-past-{kind}", f"the length of {what} is 64 too great", octets, "Overrun")
    group.refused("length-past-by-one", "the last part of an EXPIRED is one octet too long", passing(1), "Overrun")
    group.refused("length-short-by-one", "the SEQUENCE of an EXPIRED is one octet too short for its last part", passing(0, 1), "Overrun")


def passing(more, less=0):
    """An EXPIRED whose service-date-time has a length that is greater, or whose SEQUENCE has one that is less."""
    service = joined(MARK, "A2", bytes([12 + more]), "A0 0A 80 08", text("20240229"))
    inner = joined("80 01 02 A1 0A A1 03 1B 01 47 A2 03 1B 01 51", service)
    return element("74", joined("30", bytes([len(inner) - less]), inner))


def bad(book):
    group = book.group("the length octet FF", "A first length octet isn't FF.", clause="X.690, 8.1.3.5 c")
    for kind, (what, make, _) in ALL.items():
        octets = make(lambda identifier, *parts: joined(MARK, element(identifier, *parts, form=fixed("FF"))))
        group.refused(f"length-ff-of-{kind}", f"the first length octet of {what} is FF", octets, "BadLength")
    group.refused("length-ff-alone", "nothing follows the FF", joined(MARK, "74 FF"), "BadLength")
    group.refused(
        "length-ff-and-127-octets",
        "as if FF were a long form of 127 octets",
        joined(MARK, "74 FF", bytes(126), "1F", element("30", HEAD)),
        "BadLength",
    )
    group = book.group("indefinite form of primitive elements", "A primitive element has a definite length.", clause="X.690, 8.1.3.2 a")
    for kind, (what, make, _) in PRIMITIVE.items():
        octets = make(lambda identifier, *parts: joined(MARK, indefinite(identifier, *parts)))
        group.refused(f"length-indefinite-of-{kind}", f"{what} in the indefinite form", octets, "BadLength")


def cut(book):
    group = book.group("length octets that end", "All octets of a length belong to the message.", clause="X.690, 8.1.3.5")
    for count in (1, 2, 4, 126):
        for there in sorted({0, 1, count - 1} - {count}):
            octets = joined("74", bytes([0x80 | count]), bytes(there), MARK)
            group.refused(f"length-cut-{there}-of-{count}", f"the input ends after {there} of {count} octets of a length", octets, "Truncated")
    group.refused("length-cut-before", "the input ends before the length", joined("74", MARK), "Truncated")
    group.refused(
        "length-octets-past-sequence",
        "the octets of a length pass the definite element round it",
        joined("74 1F", MARK, "30 FE", bytes(29)),
        "Overrun",
    )
    group.refused(
        "length-octets-past-wrapper", "the first length octet passes the definite element round it", joined("74 01", MARK, "30 00"), "Overrun"
    )
