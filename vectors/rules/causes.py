"""Each cause at the first and at the last place where it can occur, the cuts of two messages, and which of two faults counts."""
from rules.book import Book
from rules.end_marks import all_indefinite
from rules.limits import LIMIT, filled, nest
from rules.messages import DATE, GROUP, HEAD, QUALIFIER, SERVICE, VERSION, expired, message, request
from rules.octets import MARK, element, indefinite, joined, text

# the least that a message begins with, and what stands before its date
LEAST = joined("80 01 02", "A1 08 A1 02 1B 00 A2 02 1B 00")
LEAST_HEAD = joined(LEAST, "A2 0C A0 0A", DATE)
WORDS = {
    "Truncated": "The input ends inside the message. The offset is its size.",
    "BadTag": "The octets are no identifier. The offset is that of the element.",
    "BadLength": "The first length octet is FF, or 80 of a primitive element. The offset is that of the element.",
    "TooLong": "The message would pass the limit, and no definite element is open. The offset is that of the element or end that is due.",
    "Overrun": "The element would pass the end of an open definite element. The offset is that of the element or end that is due.",
    "TooDeep": "The element would stand at depth 33. The offset is that of the element.",
    "UnexpectedTag": "Class and number aren't due here. The offset is that of the element.",
    "LeftOut": "Class and number are those of a row that is left out. The offset is that of the element.",
    "WrongForm": "The element is primitive where constructed is due, or the reverse. The offset is that of the element.",
    "Missing": "A sequence or an EXPLICIT tag ends before a mandatory part. The offset is that end.",
    "BadEnd": "In an indefinite element 00 is followed by another octet than 00. The offset is that of the first.",
    "BadBoolean": "The content of a BOOLEAN isn't one octet. The offset is that of the element.",
    "BadInteger": "The content of a number is empty, or its first nine bits are equal. The offset is that of the element.",
    "IntegerTooLong": "The content of a number has more than eight octets. The offset is that of the element.",
    "BadText": "An octet is outside the alphabet. The offset is that of the string, whole or in segments.",
    "BadDate": "A date isn't a day. The offset is that of the string, whole or in segments.",
    "BadTime": "A time isn't one. The offset is that of the string, whole or in segments.",
    "TrailingBytes": "Octets follow the message. The offset is that of the first of them.",
    "NormalTooLong": "The normal form would pass the limit. The offset is 0.",
}


def books():
    book = Book("causes", "Causes of refusal: first and last places, cuts, and the order of judgement")
    firsts, lasts = first_places(), last_places()
    assert firsts.keys() == lasts.keys() == WORDS.keys()
    for cause, words in WORDS.items():
        group = book.group(cause, words, cause=cause)
        for which, (what, octets, *part) in [("first", firsts[cause]), ("last", lasts[cause])]:
            group.refused(f"cause-{cause.lower()}-{which}", f"the {which} place of all: {what}", octets, cause, *part)
    cuts(book)
    order(book)
    yield book


def first_places():
    """For each cause what is at the first place where it can occur, the octets, and the part."""
    nested = element("74", element("30", VERSION, element("A1", element("A1", element("3B", nest(27, MARK, "04"))))))
    timed = element("74", LEAST, element("A2", element("A0", DATE, MARK, "81 00")))
    _, size = filled(spelled_indefinite, LIMIT - 2)
    return {
        "Truncated": ("no octets", joined(MARK)),
        "BadTag": ("00", joined(MARK, "00")),
        "BadLength": ("an APDU with the length octet FF", joined(MARK, "74 FF")),
        "TooLong": ("an APDU with a length that passes the limit", joined(MARK, "74 83 10 00 00")),
        "Overrun": ("no room for the length of the first element in an APDU", joined("74 01", MARK, "30")),
        "TooDeep": ("segments in segments of the first string, with lengths in the short form", nested),
        "UnexpectedTag": ("application 21", joined(MARK, "75")),
        "LeftOut": ("APDU 2", joined(MARK, "62"), "ILL-APDU.Forward-Notification"),
        "WrongForm": ("APDU 20, primitive", joined(MARK, "54")),
        "Missing": ("an APDU without parts", joined("74 00", MARK), "Expired.protocol-version-num"),
        "BadEnd": ("an indefinite APDU and 00 01", joined("74 80", MARK, "00 01")),
        "BadBoolean": ("the first part after the least head of a bare APDU", element("65", LEAST_HEAD, MARK, "9F 23 00")),
        "BadInteger": ("the first part of a bare APDU", joined("74 02", MARK, "80 00")),
        "IntegerTooLong": ("the first part of a bare APDU", element("74", MARK, "80 09 01", bytes(8))),
        "BadText": ("the first string of a bare APDU", element("74", VERSION, element("A1", element("A1", MARK, "1B 01 0E")))),
        "BadDate": ("the first date of a bare APDU with the least parts before", element("74", LEAST, element("A2", element("A0", MARK, "80 00")))),
        "BadTime": ("the first time of a bare APDU with the least parts before", timed),
        "TrailingBytes": ("an octet after the least message, of 29 octets", joined("74 1B", LEAST_HEAD, MARK, "00")),
        "NormalTooLong": ("the normal form has one octet too many", joined(MARK, spelled_indefinite(text("A" * size)))),
    }


def spelled_indefinite(octets):
    return indefinite("71", indefinite("30", HEAD, indefinite("BF 2E", element("1B", octets))))


def large(*tail, apdu="74", service=SERVICE, total=LIMIT):
    """A message of this size, with these octets at the end of its SEQUENCE and a long text near the front."""

    def make(octets):
        return element(apdu, element("30", VERSION, element("A1", element("A1", element("1B", octets)), QUALIFIER), service, *tail))

    return filled(make, total)[0]


def in_indefinite(*tail, total=LIMIT, outer=element):
    """The same with an indefinite SEQUENCE that doesn't end."""

    def make(octets):
        sequence = joined("30 80", VERSION, element("A1", element("A1", element("1B", octets)), QUALIFIER), SERVICE, *tail)
        return outer("74", sequence)

    return filled(make, total)[0]


def last_places():
    """For each cause what is at the last place where it can occur, the octets, and the part."""

    def deep(octets):
        return element("74", element("30", VERSION, element("A1", element("A1", element("3B", element("04", octets), nest(27, MARK, "04"))))))

    whole = large()
    open_ended = in_indefinite(outer=lambda tag, *pieces: joined(tag, "80", *pieces))
    numbers = ["A9 00", "80 01 00 81 01 00 82 01 00"]
    service = element("A2", element("A0", DATE, MARK, "81 00"))
    _, size = filled(spelled_indefinite, LIMIT)
    return {
        "Truncated": ("the last octet of a message of the greatest size isn't there", joined(whole[:-1], MARK)),
        "BadTag": ("00 as the last octet of a message of the greatest size", large(MARK, "00")),
        "BadLength": ("FF as the last octet of a message of the greatest size", large(MARK, "A3 FF")),
        "TooLong": ("indefinite elements are open after as many octets as a message may have", joined(open_ended, MARK)),
        "Overrun": ("a definite APDU of the greatest size ends where an indefinite SEQUENCE is open", in_indefinite(MARK)),
        "TooDeep": ("the last octet of a message of the greatest size", filled(deep, LIMIT)[0]),
        "UnexpectedTag": ("the last octet of a message of the greatest size", large(MARK, "05")),
        "LeftOut": ("the last octet of a message of the greatest size", large(MARK, "A5", apdu="70"), "Damaged.damaged-details"),
        "WrongForm": ("the last octet of a message of the greatest size", large(MARK, "83")),
        "Missing": ("the end of a message of the greatest size", large(MARK, apdu="71"), "Message.note"),
        "BadEnd": ("00 01 at the end of a message of the greatest size", in_indefinite(MARK, "00 01")),
        "BadBoolean": ("an empty BOOLEAN at the end of a message of the greatest size", large(element("BF 29", DATE, MARK, "81 00"), apdu="6C")),
        "BadInteger": (
            "an empty ENUMERATED at the end of a message of the greatest size", large(numbers[0], element("AB", numbers[1], MARK, "83 00"), apdu="61")
        ),
        "IntegerTooLong": (
            "nine octets of an ENUMERATED at the end of a message of the greatest size",
            large(numbers[0], element("AB", numbers[1], MARK, "83 09 01", bytes(8)), apdu="61"),
        ),
        "BadText": (
            "a text of one octet at the end of a message of the greatest size",
            large(element("9F 25", text("20240229")), element("BF 27", MARK, "81 01 2A"), apdu="6A"),
        ),
        "BadDate": ("an empty date at the end of a message of the greatest size", large(element("BF 29", MARK, "80 00"), apdu="6C")),
        "BadTime": ("an empty time at the end of a message of the greatest size", large(service=service)),
        "TrailingBytes": ("an octet after a message of the greatest size", joined(whole, MARK, "74")),
        "NormalTooLong": ("a message of the greatest size with a longer normal form", joined(MARK, spelled_indefinite(text("A" * size)))),
    }


def cuts(book):
    group = book.group("each cut", "Each front of a message that isn't the whole of it is Truncated at its size.", cause="Truncated")
    for name, octets, what in [
        ("expired", expired(), "an EXPIRED in normal form"),
        ("indefinite", all_indefinite(), "an EXPIRED in indefinite form"),
    ]:
        for size in range(len(octets)):
            group.refused(f"cut-{name}-{size}", f"the first {size} octets of {what}", joined(octets[:size], MARK), "Truncated")


def order(book):
    group = book.group(
        "which fault counts",
        "An element is judged from left to right: identifier, depth, tag, form, length, room, content.",
        cause="order of judgement",
    )
    deep = joined("74 80 30 80 80 01 02 A1 80 A1 80 3B 80", bytes.fromhex("24 80") * 27)
    for name, comment, octets, cause, *part in [
        ("tag-before-length", "a wrong tag with the length octet FF", joined(MARK, "75 FF"), "UnexpectedTag"),
        ("tag-before-end-of-input", "a wrong tag as the last octet", joined("74 1F 30 1D 80 01 02", MARK, "A2"), "UnexpectedTag"),
        ("tag-before-end-of-parent", "a wrong tag as the last octet of a definite element", joined("74 01", MARK, "9E"), "UnexpectedTag"),
        ("tag-before-form", "a wrong tag in a wrong form", joined("74 1F", MARK, "9E"), "UnexpectedTag"),
        (
            "left-out-before-length",
            "a part that is left out with the length octet FF",
            joined(MARK, "62 FF"),
            "LeftOut",
            "ILL-APDU.Forward-Notification",
        ),
        ("left-out-primitive", "a part that is left out, primitive", joined(MARK, "42 00"), "LeftOut", "ILL-APDU.Forward-Notification"),
        (
            "left-out-past-end",
            "a part that is left out with a length that passes its parent",
            message("Lost", MARK, "BF 31 7F"),
            "LeftOut",
            "Lost.lost-extensions",
        ),
        (
            "left-out-not-due",
            "a part that is left out before a mandatory part isn't due",
            message("Message", MARK, "BF 31 00 BF 2E 03 1B 01 41"),
            "UnexpectedTag",
        ),
        (
            "left-out-too-late",
            "a part that is left out after a later part isn't due",
            request(item=element("B0", "B2 03 1B 01 41", MARK, "B1 00")),
            "UnexpectedTag",
        ),
        ("form-before-length", "a wrong form with the length octet FF", joined(MARK, "54 FF"), "WrongForm"),
        ("form-before-end-of-input", "a wrong form as the last octet", joined("74 1F 30 1D", MARK, "A0"), "WrongForm"),
        ("identifier-before-tag", "octets that are no identifier where no high tag is due", joined("74 1F 30 1D", MARK, "9F 80"), "BadTag"),
        ("identifier-cut-at-end-of-parent", "an identifier that passes its parent", element("74", element("30", HEAD, MARK, "BF")), "Overrun"),
        ("identifier-cut-at-end-of-input", "an identifier that the input ends in", joined("74 80 30 80", HEAD, "BF", MARK), "Truncated"),
        (
            "length-octet-before-room",
            "the length octet 80 of a primitive element at the end of its parent",
            joined("74 1F 30 02", MARK, "80 80"),
            "BadLength",
        ),
        ("room-before-end-of-input", "a length that passes its parent, and the input ends", joined("74 1F 30 1D", MARK, "80 1C"), "Overrun"),
        (
            "length-whole-before-judged",
            "a length of 126 octets FF but the last, which isn't there",
            joined("74 FE", b"\xff" * 125, MARK),
            "Truncated",
        ),
        ("length-judged-when-whole", "a length of 126 octets FF", joined(MARK, "74 FE", b"\xff" * 126), "TooLong"),
        ("length-octets-before-room", "length octets that pass their parent", joined("74 1F", MARK, "30 FE", bytes(29)), "Overrun"),
        (
            "content-judged-when-whole",
            "a number of two octets, the first 00, the second not there",
            joined("74 1F 30 1D 80 02 00", MARK),
            "Truncated",
        ),
        ("content-after-room", "a number of nine octets in a parent of eight", joined("74 0A 30 08", MARK, "80 09 01", bytes(5)), "Overrun"),
        ("padded-before-too-long", "nine octets of a number with equal first bits", expired(version=joined(MARK, "80 09", bytes(9))), "BadInteger"),
        ("depth-before-tag", "a wrong tag at depth 33", joined(deep, MARK, "1B"), "TooDeep"),
        ("depth-before-length", "the length octet FF at depth 33", joined(deep, MARK, "04 FF"), "TooDeep"),
        ("identifier-before-depth", "octets that are no identifier at depth 33", joined(deep, MARK, "9F 80"), "BadTag"),
        ("end-mark-at-depth-33", "half an end mark at depth 33", joined(deep, "00", MARK), "Truncated"),
        ("bad-end-at-depth-33", "a bad end mark at depth 33", joined(deep, MARK, "00 01"), "BadEnd"),
        (
            "missing-before-end-of-input",
            "a SEQUENCE without parts ends where the input ends",
            joined("74 02 30 00", MARK),
            "Missing",
            "Expired.protocol-version-num",
        ),
        (
            "missing-before-parent",
            "a SEQUENCE without parts, and its APDU goes on with 00",
            joined("74 04 30 00", MARK, "00 00"),
            "Missing",
            "Expired.protocol-version-num",
        ),
        (
            "missing-inner-first",
            "an inner and an outer SEQUENCE end at one place, each without a part",
            element("74", element("30", VERSION, element("A1", GROUP), MARK)),
            "Missing",
            "Transaction-Id.transaction-qualifier",
        ),
        (
            "missing-at-end-mark",
            "an indefinite APDU without parts, its end mark whole",
            joined("74 80", MARK, "00 00"),
            "Missing",
            "Expired.protocol-version-num",
        ),
        ("half-end-mark-before-missing", "an indefinite APDU without parts, its end mark half", joined("74 80 00", MARK), "Truncated"),
        ("bad-end-before-missing", "an indefinite SEQUENCE without parts and 00 01", joined("74 80 30 80", MARK, "00 01"), "BadEnd"),
        (
            "text-at-end-of-string",
            "a bad octet in the first segment, and a wrong tag after it",
            expired(group=element("A1", element("3B", "04 01 1B", MARK, "1B 01 47"))),
            "UnexpectedTag",
        ),
        (
            "text-before-next-element",
            "a bad text, and a wrong tag after the string",
            expired(group=element("A1", MARK, "3B 03 04 01 1B", "05 00")),
            "BadText",
        ),
        ("first-of-two-texts", "two bad texts", expired(group=element("A1", MARK, "1B 01 0E"), qualifier=element("A2", "1B 01 0F")), "BadText"),
        (
            "normal-form-before-trailing",
            "a normal form that is too long, and octets after the message",
            joined(first_places()["NormalTooLong"][1], "74"),
            "NormalTooLong",
        ),
        ("limit-before-end-of-input", "a length that passes the limit, and the input ends", joined(MARK, "74 84 7F FF FF FF"), "TooLong"),
        ("room-before-limit", "a length that passes its parent and the limit", joined("74 1F", MARK, "30 84 7F FF FF FF"), "Overrun"),
        ("fault-before-trailing", "a fault in the message, and octets after it", joined("74 1F 30 1D", MARK, "81", HEAD, HEAD), "UnexpectedTag"),
    ]:
        group.refused(f"order-{name}", comment, octets, cause, *part)
