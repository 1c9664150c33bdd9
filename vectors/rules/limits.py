"""Each limit at its value and one beyond."""
from rules.book import Book
from rules.messages import HEAD, HEAD_VALUE, QUALIFIER, REQUEST_VALUE, SERVICE, VERSION, expired, message, request, with_head
from rules.octets import MARK, element, fixed, indefinite, joined, long, of, text

LIMIT = 1_048_576


def books():
    book = Book("limits", "Limits, each at its value and one beyond")
    sizes(book)
    normal_sizes(book)
    depths(book)
    headers(book)
    contents(book)
    many(book)
    yield book


def filled(make, total):
    """The octets that a text makes, where the text is long enough to make this many."""
    size = total - 64
    while True:
        octets = make(text("A" * size))
        if len(octets) == total:
            return octets, size
        size += total - len(octets)


def noted(size):
    """The value of a MESSAGE with a note of this many octets."""
    return with_head(note={"general": "A" * size})


def sizes(book):
    group = book.group("octets of a message", "A message has at most 1,048,576 octets.", limit="octets of a message: 1,048,576")

    def definite(octets):
        return message("Message", element("BF 2E", element("1B", octets)))

    octets, size = filled(definite, LIMIT)
    group.valid("limit-message", "1,048,576 octets, in normal form", octets, "Message", noted(size))
    octets, size = filled(definite, LIMIT - 1)
    group.valid("limit-message-less-one", "1,048,575 octets, in normal form", octets, "Message", noted(size))
    octets, _ = filled(definite, LIMIT + 1)
    group.refused("limit-message-and-one", "1,048,577 octets", joined(MARK, octets), "TooLong")
    octets, _ = filled(definite, LIMIT)
    group.refused("limit-message-header-alone", "only the header of a message of 1,048,577 octets", joined(MARK, "71 83 0F FF FC"), "TooLong")
    group.refused("limit-message-header-within", "only the header of a message of 1,048,576 octets", joined("71 83 0F FF FB", MARK), "Truncated")

    def inside(octets):
        return indefinite("71", indefinite("30", HEAD, indefinite("BF 2E", element("1B", octets, form=of(126)))))

    octets, size = filled(inside, LIMIT)
    group.valid("limit-indefinite-message", "1,048,576 octets, the last an end mark", octets, "Message", noted(size))
    octets, _ = filled(inside, LIMIT + 1)
    beyond = joined(octets[: LIMIT - 1], MARK, octets[LIMIT - 1 :])
    group.refused("limit-indefinite-message-and-one", "the last end mark has its second octet beyond", beyond, "TooLong")
    octets, _ = filled(inside, LIMIT + 2)
    beyond = joined(octets[:LIMIT], MARK, octets[LIMIT:])
    group.refused("limit-indefinite-message-and-two", "the last end mark stands beyond", beyond, "TooLong")
    group.refused("limit-element-in-indefinite", "a text in indefinite elements passes the limit by one octet", note_to(LIMIT + 1), "TooLong")
    group.refused("limit-element-in-indefinite-within", "the same text ends at the limit, and so does the input", note_to(LIMIT), "Truncated")
    group.refused("limit-segments-in-indefinite", "segments of no octets up to the limit and on", segments_to(LIMIT + 16), "TooLong")


def note_to(end):
    """The front of a MESSAGE in indefinite elements up to its note's header, which ends there."""
    front = joined("71 80 30 80", HEAD, "BF 2E 80")
    size = end - len(front) - 5
    header = joined("1B", long(size, 3))
    return joined(front, MARK, header) if end > LIMIT else joined(front, header, text("A" * (end - len(front) - 5 - 6)), MARK)


def segments_to(end):
    """Empty segments in indefinite elements: the first that isn't within the limit begins one octet before it."""
    front = joined("74 80 30 80 80 01 02 A1 80 A1 80 3B 80")
    count = (LIMIT - len(front)) // 2
    there = joined(front, bytes.fromhex("04 00") * count)
    assert len(there) == LIMIT - 1
    return joined(there, MARK, bytes.fromhex("04 00") * ((end - len(there)) // 2))


def normal_sizes(book):
    text_ = "A normal form has at most 1,048,576 octets, also where the message is shorter. The offset is 0."
    group = book.group("octets of a normal form", text_, limit="octets of a normal form: 1,048,576")

    def inside(octets):
        return indefinite("71", indefinite("30", HEAD, indefinite("BF 2E", element("1B", octets))))

    octets, size = filled(inside, LIMIT - 3)
    group.valid("limit-normal-form", "1,048,573 octets, and 1,048,576 in normal form", octets, "Message", noted(size))
    octets, _ = filled(inside, LIMIT - 2)
    group.refused("limit-normal-form-and-one", "1,048,574 octets, and 1,048,577 in normal form", joined(MARK, octets), "NormalTooLong")
    octets, _ = filled(inside, LIMIT)
    group.refused("limit-normal-form-and-three", "1,048,576 octets, and 1,048,579 in normal form", joined(MARK, octets), "NormalTooLong")

    def bare(octets):
        return element("71", HEAD, element("BF 2E", element("1B", octets)))

    octets, size = filled(bare, LIMIT - 5)
    group.valid("limit-normal-form-of-bare", "1,048,571 octets without the 30 of a SEQUENCE", octets, "Message", noted(size))
    octets, _ = filled(bare, LIMIT - 4)
    group.refused("limit-normal-form-of-bare-and-one", "1,048,572 octets without the 30 of a SEQUENCE", joined(MARK, octets), "NormalTooLong")


def nest(count, *pieces, write=element):
    """Segments in segments."""
    for _ in range(count):
        pieces = [write("24", *pieces)]
    return joined(*pieces)


def depths(book):
    group = book.group("depth", "An element stands at depth 32 at most; the APDU stands at depth 1.", limit="depth: 32")
    for form, write in [("definite", element), ("indefinite", indefinite)]:
        # the string stands at depth 5, and the innermost segment at 6 and the count
        octets = expired(group=element("A1", write("3B", nest(26, "04 01 47", write=write))))
        group.valid(f"limit-depth-{form}", f"a segment at depth 32, {form}", octets, "Expired", HEAD_VALUE)
        octets = expired(group=element("A1", write("3B", nest(27, MARK, "04 01 47", write=write))))
        group.refused(f"limit-depth-{form}-and-one", f"a segment at depth 33, {form}", octets, "TooDeep")
        octets = expired(group=element("A1", write("3B", nest(27, write=write), "04 01 47")))
        group.valid(f"limit-depth-{form}-empty", f"a segment of no segments at depth 32, {form}", octets, "Expired", HEAD_VALUE)
        octets = expired(group=element("A1", write("3B", nest(27, MARK, write("24"), write=write))))
        group.refused(f"limit-depth-{form}-empty-and-one", f"a segment of no segments at depth 33, {form}", octets, "TooDeep")
        bare = element("74", VERSION, element("A1", element("A1", write("3B", nest(27, "04 01 47", write=write))), QUALIFIER), SERVICE)
        group.valid(f"limit-depth-{form}-of-bare", f"a bare APDU has one depth less, {form}", bare, "Expired", HEAD_VALUE)
        bare = element("74", VERSION, element("A1", element("A1", write("3B", nest(28, MARK, "04 01 47", write=write))), QUALIFIER), SERVICE)
        group.refused(f"limit-depth-{form}-of-bare-and-one", f"a bare APDU with a segment at depth 33, {form}", bare, "TooDeep")
    octets = expired(date=element("A0", nest(26, element("04", text("20240229")))))
    group.valid("limit-depth-of-a-date", "a date at depth 32", octets, "Expired", HEAD_VALUE)
    octets = expired(date=element("A0", nest(27, MARK, element("04", text("20240229")))))
    group.refused("limit-depth-of-a-date-and-one", "a date at depth 33", octets, "TooDeep")
    octets = joined("74 80 30 80 80 01 02 A1 80 A1 80 3B 80", bytes.fromhex("24 80") * 27, MARK, bytes.fromhex("24 80") * 100_000)
    group.refused("limit-depth-100000", "segments in 100,027 segments", octets, "TooDeep")
    location = {"location-id": {"person-or-institution-symbol": {"institution-symbol": {"general": "L"}}}}
    value = with_head({"transaction-results": 3, "results-explanation": {"unfilled-results": {"reason-unfilled": 1, "location-list": [location]}}})
    octets = message("ILL-Answer", "9F 1F 01 03 BF 20 14 A3 12 30 10 80 01 01 A1 0B 30 09 A0 07 A0 05 A1 03 1B 01 4C")
    group.valid("limit-depth-of-the-tables", "depth 11, which is all that the tables have without segments", octets, "ILL-Answer", value)


def headers(book):
    group = book.group("octets of a tag number", "A tag number has at most four octets after the first.", limit="octets of a tag number: 4")
    group.refused("limit-number-octets", "four octets: 268,435,455, which no row has", message("Lost", MARK, "BF FF FF FF 7F 00"), "UnexpectedTag")
    group.refused("limit-number-octets-and-one", "five octets: 268,435,456", message("Lost", MARK, "BF 81 80 80 80 00 00"), "BadTag")
    group.refused("limit-number-octets-cut", "BadTag is known at the fourth octet", joined("74 80 30 80", HEAD, MARK, "BF 81 80 80 80"), "BadTag")
    group = book.group("octets of a length", "A length has at most 126 octets after the first.", limit="octets of a length: 126")
    octets = element("74", element("30", HEAD), form=of(126))
    group.valid("limit-length-octets", "126 octets", octets, "Expired", HEAD_VALUE)
    octets = joined(MARK, element("74", element("30", HEAD), form=fixed("FF" + "00" * 126 + "1F")))
    group.refused("limit-length-octets-and-one", "127 octets, which no length has", octets, "BadLength")
    octets = expired(group=element("A1", element("1B", "47", form=of(126)), form=of(126)))
    group.valid("limit-length-octets-inside", "126 octets for the lengths of a string and of its tag", octets, "Expired", HEAD_VALUE)


def contents(book):
    group = book.group("octets of a number", "An INTEGER or ENUMERATED has at most eight octets.", limit="octets of a number: 8")
    for name, content, number in [("greatest", "7F" + "FF" * 7, 2**63 - 1), ("least", "80" + "00" * 7, -(2**63))]:
        octets = expired(version=element("80", content))
        group.valid(f"limit-number-{name}", f"the {name} number", octets, "Expired", with_head(protocol_version_num=number))
        octets = request(element("A9", element("0A", content)))
        value = with_head({**REQUEST_VALUE, "ill-service-type": [number]})
        group.valid(f"limit-enumerated-{name}", f"the {name} number of an ENUMERATED", octets, "ILL-Request", value)
    for name, content in [("greatest-and-one", "00 80" + "00" * 7), ("least-less-one", "FF 7F" + "FF" * 7)]:
        octets = expired(version=joined(MARK, element("80", content)))
        group.refused(f"limit-number-{name}", f"the number {name.replace('-', ' ')}", octets, "IntegerTooLong")
        octets = request(element("A9", MARK, element("0A", content)))
        group.refused(f"limit-enumerated-{name}", f"the number {name.replace('-', ' ')} of an ENUMERATED", octets, "IntegerTooLong")


def many(book):
    group = book.group(
        "many elements", "There is no limit of items and segments but the size of the message.", limit="octets of a message: 1,048,576"
    )
    count = (LIMIT - 128) // 3
    octets = request(element("A9", bytes.fromhex("0A 01 01") * count))
    group.valid(
        "limit-many-items",
        f"a list of {count} items",
        octets,
        "ILL-Request",
        with_head({**REQUEST_VALUE, "ill-service-type": {"item": 1, "count": count}}),
    )
    count = (LIMIT - 128) // 2
    octets = message("ILL-Answer", "9F 1F 01 02", element("BF 22", bytes.fromhex("30 00") * count))
    value = with_head({"transaction-results": 2, "already-tried-list": {"item": {}, "count": count}})
    group.valid("limit-many-empty-items", f"a list of {count} empty sequences", octets, "ILL-Answer", value)
    count = (LIMIT - 128) // 3
    octets = message("Message", element("BF 2E", indefinite("3B", bytes.fromhex("04 01 41") * count)))
    group.valid("limit-many-segments", f"a note in {count} segments", octets, "Message", noted(count))
