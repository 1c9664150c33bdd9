"""The indefinite form and its end marks."""
from rules.book import Book
from rules.messages import HEAD, HEAD_VALUE, QUALIFIER, REQUEST_VALUE, VERSION, expired, request, with_date, with_group, with_head
from rules.octets import MARK, element, indefinite, joined, text
from rules.places import CONSTRUCTED


def books():
    book = Book("end_marks", "Indefinite form and end marks (X.690, 8.1.3.6 and 8.1.5)")
    each_element(book)
    bad_marks(book)
    cut(book)
    crossing(book)
    empty(book)
    yield book


def each_element(book):
    group = book.group(
        "indefinite form of each element", "A constructed element may have the length octet 80, and ends with 00 00.", clause="X.690, 8.1.3.6"
    )
    for kind, (what, make, (apdu, value)) in CONSTRUCTED.items():
        group.valid(f"indefinite-{kind}", f"{what} in the indefinite form", make(indefinite), apdu, value)
        if kind not in ("apdu", "bare-apdu"):
            definite = make(indefinite)
            octets = joined(definite[:1], "80", body_of(definite), "00 00")
            group.valid(f"indefinite-{kind}-in-indefinite-apdu", f"{what} and the APDU in the indefinite form", octets, apdu, value)
    group.valid("indefinite-all", "each constructed element of an EXPIRED in the indefinite form", all_indefinite(), "Expired", HEAD_VALUE)
    date = indefinite("A0", element("04", text("2024")), indefinite("24", element("04", text("02")), indefinite("24")), element("04", text("29")))
    octets = indefinite(
        "74",
        indefinite(
            "30",
            VERSION,
            indefinite("A1", indefinite("A1", indefinite("3B", indefinite("24", "04 01 47"))), QUALIFIER),
            indefinite("A2", indefinite("A0", date)),
        ),
    )
    group.valid(
        "indefinite-all-and-segments", "each constructed element in the indefinite form, and strings in segments", octets, "Expired", HEAD_VALUE
    )
    octets = element(
        "74",
        indefinite(
            "30",
            VERSION,
            element("A1", indefinite("A1", element("3B", "04 01 47")), QUALIFIER),
            indefinite("A2", element("A0", "80 08", text("20240229"))),
        ),
    )
    group.valid("indefinite-alternating", "definite and indefinite elements in turn", octets, "Expired", HEAD_VALUE)
    group.valid(
        "indefinite-with-zeros",
        "a text of two octets 00 in an indefinite element is no end mark",
        expired(group=indefinite("A1", indefinite("3B", "04 02 00 00"))),
        "Expired",
        with_group("\0\0"),
    )
    octets = indefinite("74", indefinite("30", "80 01 00", HEAD[3:]))
    group.valid(
        "indefinite-with-number-zero", "a number whose content is 00, and then no end mark", octets, "Expired", with_head(protocol_version_num=0)
    )
    octets = request(indefinite("A9"), item=indefinite("B0"))
    group.valid(
        "indefinite-empty",
        "an empty list and an empty SEQUENCE in the indefinite form",
        octets,
        "ILL-Request",
        with_head({**REQUEST_VALUE, "ill-service-type": []}),
    )
    group.valid(
        "indefinite-empty-string",
        "a string of no segments in the indefinite form",
        expired(group=element("A1", indefinite("3B"))),
        "Expired",
        with_group(""),
    )
    group.valid(
        "indefinite-empty-segment",
        "a segment of no segments in the indefinite form",
        expired(group=element("A1", element("3B", indefinite("24"), "04 01 47"))),
        "Expired",
        HEAD_VALUE,
    )


def body_of(octets):
    """The contents of an APDU of a definite length."""
    count = octets[1] & 0x7F if octets[1] & 0x80 else 0
    return octets[2:] if octets[1] == 0x80 else octets[2 + count :]


def all_indefinite(end="00 00"):
    """An EXPIRED with each constructed element in the indefinite form, and this for the last end mark."""
    group, qualifier = indefinite("A1", element("1B", "47")), indefinite("A2", element("1B", "51"))
    service = indefinite("A2", indefinite("A0", "80 08", text("20240229")))
    return joined("74 80", indefinite("30", VERSION, indefinite("A1", group, qualifier), service), end)


def bad_marks(book):
    group = book.group("end marks with another second octet", "An end mark is two octets 00.", clause="X.690, 8.1.5")
    for kind, (what, make, _) in CONSTRUCTED.items():
        octets = make(lambda identifier, *parts: joined(identifier, "80", *parts, MARK, "00 01"))
        group.refused(f"end-mark-00-01-of-{kind}", f"{what} in the indefinite form ends with 00 01", octets, "BadEnd")
    for second in ("02", "7F", "80", "81", "FF"):
        group.refused(f"end-mark-00-{second.lower()}", f"the last end mark is 00 {second}", all_indefinite(joined(MARK, "00", second)), "BadEnd")
    group.refused("end-mark-00-81-00", "an end mark whose length is in the long form", all_indefinite(joined(MARK, "00 81 00")), "BadEnd")
    group.refused("end-mark-first", "an indefinite APDU begins with 00 01", joined("74 80", MARK, "00 01"), "BadEnd")


def cut(book):
    group = book.group("end marks that are not there", "An indefinite element ends with an end mark, or not at all.", clause="X.690, 8.1.3.6.2")
    for name, end, what in [("no-end-mark", "", "no end mark"), ("half-an-end-mark", "00", "half an end mark")]:
        group.refused(f"end-mark-{name}", f"the APDU has {what}", all_indefinite(joined(end, MARK)), "Truncated")
    group.refused(
        "end-mark-for-apdu-alone",
        "a definite SEQUENCE in an indefinite APDU without an end mark",
        joined("74 80", element("30", HEAD), MARK),
        "Truncated",
    )
    octets = joined(indefinite("74", indefinite("30", HEAD)), MARK, "00 00")
    group.refused("end-mark-too-many", "an end mark more than there are indefinite elements", octets, "TrailingBytes")
    octets = joined(element("74", element("30", HEAD)), MARK, "00 00")
    group.refused("end-mark-after-definite-apdu", "an end mark after a definite APDU", octets, "TrailingBytes")


def crossing(book):
    group = book.group(
        "end marks and definite elements", "An indefinite element ends within the definite elements round it.", clause="X.690, 8.1.1.3"
    )
    group.refused(
        "end-mark-past-sequence",
        "the definite SEQUENCE ends before the end mark of a part",
        element("74", element("30", VERSION, "A1 80 A1 03 1B 01 47 A2 03 1B 01 51", MARK)),
        "Overrun",
    )
    octets = joined("74 06 30 80 80 01 02", MARK, "00")
    group.refused("end-mark-half-past-apdu", "the definite APDU ends in the middle of an end mark", octets, "Overrun")
    group.refused("end-mark-past-apdu", "the definite APDU ends where an indefinite SEQUENCE began", joined("74 02 30 80", MARK), "Overrun")
    octets = expired(group=element("A1", "3B 80 04 01 47", MARK))
    group.refused("end-mark-past-wrapper", "the definite EXPLICIT tag ends before the end mark of its string", octets, "Overrun")
    octets = expired(group=element("A1", element("3B", "24 80 04 01 47", MARK)))
    group.refused("end-mark-past-string", "the definite string ends before the end mark of a segment", octets, "Overrun")
    octets = expired(group=joined("A1 80", MARK, "1B 7F 47 00 00"))
    group.refused("end-mark-element-past-outer", "an element of an indefinite one passes the definite SEQUENCE round both", octets, "Overrun")
    group = book.group("end marks before a mandatory part", "An end mark may come only where each mandatory part was.", clause="X.690, 8.9.2")
    octets = joined("74 80 30 80 80 01 02", MARK, "00 00")
    group.refused("end-mark-before-transaction-id", "an indefinite SEQUENCE ends after its first part", octets, "Missing", "Expired.transaction-id")
    group.refused(
        "end-mark-in-empty-apdu", "an indefinite APDU of no parts", joined("74 80", MARK, "00 00"), "Missing", "Expired.protocol-version-num"
    )
    group.refused(
        "end-mark-in-empty-sequence",
        "an indefinite SEQUENCE of no parts",
        joined("74 80 30 80", MARK, "00 00"),
        "Missing",
        "Expired.protocol-version-num",
    )
    octets = joined("74 80 30 80 80 01 02 A1 80 A1 80", MARK, "00 00")
    group.refused(
        "end-mark-in-empty-wrapper", "an indefinite EXPLICIT tag round nothing", octets, "Missing", "Transaction-Id.transaction-group-qualifier"
    )
    octets = joined("74 80 30 80 80 01 02", element("A1", "A1 03 1B 01 47 A2 03 1B 01 51"), "A2 80", MARK, "00 00")
    group.refused(
        "end-mark-in-empty-service-date-time",
        "an indefinite SEQUENCE with an IMPLICIT tag, of no parts",
        octets,
        "Missing",
        "Service-Date-Time.date-time-of-this-service",
    )


def empty(book):
    group = book.group("contents are judged at the end mark", "A string in segments is judged where it ends.", clause="X.690, 8.7.3")
    octets = expired(date=joined(MARK, indefinite("A0", "04 04", text("2024"), "04 04", text("0230"))))
    group.refused("end-mark-of-a-bad-date", "the segments of an indefinite date are 30 February", octets, "BadDate")
    octets = expired(date=joined(MARK, indefinite("A0")))
    group.refused("end-mark-of-an-empty-date", "an indefinite date has no segments", octets, "BadDate")
    octets = expired(group=element("A1", joined(MARK, indefinite("3B", "04 01 47", indefinite("24", "04 01 1B")))))
    group.refused("end-mark-of-a-bad-text", "an inner segment of an indefinite string has ESC", octets, "BadText")
    octets = expired(date=indefinite("A0", "04 04", text("2024"), "04 04", text("0228")))
    group.valid("end-mark-of-a-date", "a date in two segments", octets, "Expired", with_date("20240228"))
