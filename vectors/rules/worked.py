"""Worked rows: octets and what comes of them, both written down by hand. The judge has to find the same."""
from model.encoder import Writer
from model.judge import message

from rules.book import Book
from rules.limits import LIMIT
from rules.messages import HEAD, HEAD_VALUE, REQUEST_VALUE, expired, with_date, with_group, with_head
from rules.messages import message as message_of
from rules.octets import Marked, element, joined, text

EXPIRED = "74 1F 30 1D 80 01 02 A1 0A A1 03 1B 01 47 A2 03 1B 01 51 A2 0C A0 0A 80 08 32 30 32 34 30 32 32 39"
INDEFINITE = "74 80 30 80 80 01 02 A1 80 A1 80 1B 01 47 00 00 A2 80 1B 01 51 00 00 00 00 A2 80 A0 80 80 08 32 30 32 34 30 32 32 39" + " 00" * 8
VISIBLE = "74 1F 30 1D 80 01 02 A1 0A A1 03 1A 01 47 A2 03 1B 01 51 A2 0C A0 0A 80 08 32 30 32 34 30 32 32 39"
REQUEST = joined("61 34 30 32", HEAD, "A9 03 0A 01 01 AB 0C 80 01 00 81 01 00 82 01 01 83 01 01 B0 00")
EMPTY_CLIENT = joined("61 36 30 34", HEAD, "A9 03 0A 01 01 AB 0C 80 01 00 81 01 00 82 01 01 83 01 01 AF 00 B0 00")
NO_TYPES = joined("61 31 30 2F", HEAD, "A9 00 AB 0C 80 01 00 81 01 00 82 01 01 83 01 01 B0 00")
ANSWER = joined("64 33 30 31", HEAD, "9F 1F 01 07 BF 20 0D A7 0B 30 09 A0 07 1B 05 31 32 2E 35 30")
JONES = "74 23 30 21 80 01 02 A1 0E A1 07 1A 05 4A 6F 6E 65 73 A2 03 1B 01 51 A2 0C A0 0A 80 08 32 30 32 34 30 32 32 39"
OVERDUE = joined("6C 2C 30 2A", HEAD, "BF 29 0A 80 08 32 30 32 34 30 32 32 39")
OVERDUE_07 = joined("6C 2F 30 2D", HEAD, "BF 29 0D 80 08 32 30 32 34 30 32 32 39 81 01 07")
TIMES = {"leap-second": "235960", "end-of-day": "240000", "start-of-day": "000000"}
# the octets are their own normal form
OWN = None

ROWS = [
    (
        "worked: normal forms",
        {"clause": "X.690, 10 and 11"},
        "A normal form is accepted, and is its own normal form.",
        [
            ("expired-normal-form", "an EXPIRED: version 2, group G, qualifier Q, 29 February 2024", EXPIRED, OWN),
            ("request-normal-form", "an ILL-REQUEST with its mandatory parts", REQUEST, OWN),
            ("answer-normal-form", "an ILL-ANSWER with an estimate", ANSWER, OWN),
            ("overdue-normal-form", "an OVERDUE that may be renewed, by default", OVERDUE, OWN),
            (
                "overdue-not-renewable",
                "an OVERDUE that may not be renewed",
                joined("6C 2F 30 2D", HEAD, "BF 29 0D 80 08 32 30 32 34 30 32 32 39 81 01 00"),
                OWN,
            ),
            ("renew-with-date", "a RENEW with the date that is wanted", joined("6D 2A 30 28", HEAD, "9F 2A 08 32 30 32 34 30 33 33 31"), OWN),
            ("received-in-order", "a RECEIVED", joined("68 2D 30 2B", HEAD, "9F 24 08 32 30 32 34 30 33 31 35 9B 01 01"), OWN),
            (
                "returned-with-amount",
                "a RETURNED that is insured for USD 12.50",
                joined("6A 39 30 37", HEAD, "9F 25 08 32 30 32 34 30 32 32 39 BF 27 0C 80 03 55 53 44 81 05 31 32 2E 35 30"),
                OWN,
            ),
            (
                "requester-id-institution-symbol",
                "a requester-id with the symbol L of an institution",
                joined("74 28 30 26", HEAD, "A3 07 A0 05 A1 03 1B 01 4C"),
                OWN,
            ),
            ("requester-id-empty", "an empty requester-id", joined("74 21 30 1F", HEAD, "A3 00"), OWN),
            (
                "request-with-physical-delivery",
                "an ILL-REQUEST with a physical delivery service",
                joined("61 3C 30 3A", HEAD, "A7 06 1B 04 6D 61 69 6C A9 03 0A 01 01 AB 0C 80 01 00 81 01 00 82 01 01 83 01 01 B0 00"),
                OWN,
            ),
            ("request-with-empty-service-types", "an ILL-REQUEST with an empty list of service types", NO_TYPES, OWN),
            ("request-with-empty-client-id", "an ILL-REQUEST with an empty client-id, which isn't an absent one", EMPTY_CLIENT, OWN),
            ("group-qualifier-visible", "a VisibleString where the EXPIRED above has a GeneralString: another APDU", VISIBLE, OWN),
            (
                "empty-group-qualifier",
                "an empty text",
                "74 1E 30 1C 80 01 02 A1 09 A1 02 1B 00 A2 03 1B 01 51 A2 0C A0 0A 80 08 32 30 32 34 30 32 32 39",
                OWN,
            ),
            (
                "answer-of-depth-eleven",
                "an ILL-ANSWER of depth 11, which is all that the tables have",
                joined("64 3A 30 38", HEAD, "9F 1F 01 03 BF 20 14 A3 12 30 10 80 01 01 A1 0B 30 09 A0 07 A0 05 A1 03 1B 01 4C"),
                OWN,
            ),
            (
                "list-of-empty-system-ids",
                "a list of 32,744 empty sequences",
                joined("64 82 FF FA 30 82 FF F6", HEAD, "9F 1F 01 02 BF 22 82 FF D0", bytes.fromhex("3000") * 32744),
                OWN,
            ),
        ],
    ),
    (
        "worked: lengths",
        {"clause": "X.690, 8.1.3"},
        "Any length form is read, and an octet FF or 80 only where it is one.",
        [
            ("expired-all-indefinite", "each constructed element in the indefinite form", INDEFINITE, EXPIRED),
            (
                "expired-long-form-lengths",
                "each length in the long form, with one octet",
                "74 81 29 30 81 26 80 81 01 02 A1 81 0E A1 81 04 1B 81 01 47 A2 81 04 1B 81 01 51 A2 81 0E A0 81 0B 80 81 08 32 30 32 34 30 32 32 39",
                EXPIRED,
            ),
            ("outer-length-four-octets", "a length of four octets with leading zeros", joined("74 84 00 00 00 1F 30 1D", HEAD), EXPIRED),
            (
                "outer-length-126-octets",
                "a length of 126 octets with leading zeros",
                joined("74 FE", bytes.fromhex("00") * 125, "1F 30 1D", HEAD),
                EXPIRED,
            ),
            ("length-octet-ff", "the length octet FF", "74 FF", ("BadLength", 0)),
            ("indefinite-length-on-primitive", "the length octet 80 on a primitive element", "74 1F 30 1D 80 80", ("BadLength", 4)),
            ("length-of-126-ff", "a length of 126 octets FF", joined("74 FE", bytes.fromhex("FF") * 126), ("TooLong", 0)),
            ("length-of-125-ff", "the same without its last octet", joined("74 FE", bytes.fromhex("FF") * 125), ("Truncated", 127)),
            (
                "length-octets-pass-the-wrapper",
                "a length whose octets pass the element round them",
                joined("74 1F 30 FE", bytes.fromhex("00") * 29),
                ("Overrun", 2),
            ),
        ],
    ),
    (
        "worked: end marks",
        {"clause": "X.690, 8.1.5"},
        "An end mark is 00 00, and ends an indefinite element within the definite ones round it.",
        [
            ("end-mark-passes-definite-parent", "the definite APDU ends in the middle of an end mark", "74 06 30 80 80 01 02 00", ("Overrun", 7)),
            ("end-mark-with-other-second-octet", "00 and then 01", "74 80 30 80 80 01 02 00 01", ("BadEnd", 7)),
            (
                "end-mark-before-mandatory-part",
                "an end mark after the first part of an EXPIRED",
                "74 80 30 80 80 01 02 00 00",
                ("Missing", 7, "Expired.transaction-id"),
            ),
            ("zero-tag-in-definite-parent", "00 in a definite element", "74 1F 30 1D 00", ("BadTag", 4)),
        ],
    ),
    (
        "worked: identifiers",
        {"clause": "X.690, 8.1.2"},
        "A tag number from 31 on has octets of its own, and a smaller one hasn't.",
        [
            ("high-tag-below-31", "30 in the form for numbers from 31 on", "74 1F 30 1D 9F 1E", ("BadTag", 4)),
            ("high-tag-with-leading-80", "a tag number that begins with 80", "74 1F 30 1D 9F 80", ("BadTag", 4)),
            ("identifier-context-31-primitive", "[31], primitive: 9F 1F; [32], constructed: BF 20", ANSWER, OWN),
            (
                "identifier-context-32-constructed",
                "[32], constructed: BF 20, in the indefinite form",
                joined("64 80 30 80", HEAD, "9F 1F 01 07 BF 20 80 A7 0B 30 09 A0 07 1B 05 31 32 2E 35 30 00 00 00 00 00 00"),
                ANSWER,
            ),
            ("identifier-context-46-constructed", "[46], constructed: BF 2E", joined("71 25 30 23", HEAD, "BF 2E 03 1B 01 41"), OWN),
            (
                "identifier-context-49-constructed",
                "[49], constructed: BF 31",
                joined("74 22 30 20", HEAD, "BF 31 00"),
                ("LeftOut", 33, "Expired.expired-extensions"),
            ),
            ("identifier-application-20-constructed", "application 20, constructed: 74", EXPIRED, OWN),
            ("primitive-sequence", "a SEQUENCE that is primitive", "74 1F 10", ("WrongForm", 2)),
            ("constructed-integer", "an INTEGER that is constructed", "74 1F 30 1D A0", ("WrongForm", 4)),
            ("apdu-primitive", "an APDU that is primitive", "54", ("WrongForm", 0)),
        ],
    ),
    (
        "worked: strings",
        {"clause": "X.690, 8.7 and 8.23"},
        "A string may be in segments, which have the tag of an OCTET STRING.",
        [
            ("jones-primitive", "the VisibleString Jones, primitive", JONES, OWN),
            (
                "jones-constructed",
                "the VisibleString Jones in two segments",
                "74 27 30 25 80 01 02 A1 12 A1 0B 3A 09 04 03 4A 6F 6E 04 02 65 73 A2 03 1B 01 51 A2 0C A0 0A 80 08 32 30 32 34 30 32 32 39",
                JONES,
            ),
            (
                "jones-indefinite",
                "the VisibleString Jones in two segments, in the indefinite form",
                "74 29 30 27 80 01 02 A1 14 A1 0D 3A 80 04 03 4A 6F 6E 04 02 65 73 00 00 A2 03 1B 01 51 A2 0C A0 0A 80 08 32 30 32 34 30 32 32 39",
                JONES,
            ),
            (
                "date-in-segments",
                "a date in two segments",
                "74 23 30 21 80 01 02 A1 0A A1 03 1B 01 47 A2 03 1B 01 51 A2 10 A0 0E A0 0C 04 04 32 30 32 34 04 04 30 32 32 39",
                EXPIRED,
            ),
            (
                "empty-constructed-group-qualifier",
                "a text of no segments",
                "74 1E 30 1C 80 01 02 A1 09 A1 02 3B 00 A2 03 1B 01 51 A2 0C A0 0A 80 08 32 30 32 34 30 32 32 39",
                "74 1E 30 1C 80 01 02 A1 09 A1 02 1B 00 A2 03 1B 01 51 A2 0C A0 0A 80 08 32 30 32 34 30 32 32 39",
            ),
            (
                "segment-with-the-strings-tag",
                "a segment with the tag of a VisibleString",
                "74 21 30 1F 80 01 02 A1 0C A1 05 3A 03 1A 01 47 A2 03 1B 01 51 A2 0C A0 0A 80 08 32 30 32 34 30 32 32 39",
                ("UnexpectedTag", 13),
            ),
            (
                "segments-to-depth-32",
                "segments in segments down to depth 32",
                joined(
                    "74 81 8C 30 81 89 80 01 02 A1 76 A1 6F 3B 80",
                    bytes.fromhex("2480") * 26,
                    "04 01 47",
                    bytes.fromhex("0000") * 27,
                    "A2 03 1B 01 51 A2 0C A0 0A 80 08 32 30 32 34 30 32 32 39",
                ),
                EXPIRED,
            ),
            (
                "segments-to-depth-33",
                "segments in segments down to depth 33",
                joined(
                    "74 81 90 30 81 8D 80 01 02 A1 7A A1 73 3B 80",
                    bytes.fromhex("2480") * 27,
                    "04 01 47",
                    bytes.fromhex("0000") * 28,
                    "A2 03 1B 01 51 A2 0C A0 0A 80 08 32 30 32 34 30 32 32 39",
                ),
                ("TooDeep", 69),
            ),
            (
                "segment-with-unit-separator-octet",
                "the octet 1B in the second segment",
                "74 24 30 22 80 01 02 A1 0F A1 08 3B 06 04 01 47 04 01 1B",
                ("BadText", 11),
            ),
            (
                "segment-with-unit-separator-octet-and-more",
                "the same, and octets after it",
                "74 24 30 22 80 01 02 A1 0F A1 08 3B 06 04 01 47 04 01 1B FF FF FF",
                ("BadText", 11),
            ),
            (
                "endless-segments-second-limit",
                "segments of no octets, on and on",
                joined("74 80 30 80 80 01 02 A1 80 A1 80 3B 80", bytes.fromhex("04 00") * (LIMIT // 2)),
                ("TooLong", 1_048_575),
            ),
        ],
    ),
    (
        "worked: BOOLEAN",
        {"clause": "X.690, 8.2 and 11.1"},
        "Any octet but 00 is TRUE, and FF in the normal form.",
        [
            ("true-written-as-01", "TRUE as 01", joined("67 23 30 21", HEAD, "9F 23 01 01"), joined("67 23 30 21", HEAD, "9F 23 01 FF")),
            ("overdue-renewable-true-written-as-07", "a default TRUE, written as 07", OVERDUE_07, OVERDUE),
        ],
    ),
    (
        "worked: INTEGER",
        {"clause": "X.690, 8.3"},
        "A number has the fewest octets that hold it, at most eight.",
        [
            (
                "padded-integer",
                "00 02",
                "74 20 30 1E 80 02 00 02 A1 0A A1 03 1B 01 47 A2 03 1B 01 51 A2 0C A0 0A 80 08 32 30 32 34 30 32 32 39",
                ("BadInteger", 4),
            ),
            (
                "empty-integer",
                "no octets",
                "74 1E 30 1C 80 00 A1 0A A1 03 1B 01 47 A2 03 1B 01 51 A2 0C A0 0A 80 08 32 30 32 34 30 32 32 39",
                ("BadInteger", 4),
            ),
            (
                "integer-of-nine-octets",
                "01 and eight octets 00",
                joined(
                    "74 27 30 25 80 09 01", bytes.fromhex("00") * 8, "A1 0A A1 03 1B 01 47 A2 03 1B 01 51 A2 0C A0 0A 80 08 32 30 32 34 30 32 32 39"
                ),
                ("IntegerTooLong", 4),
            ),
        ],
    ),
    (
        "worked: defaults",
        {"clause": "X.690, 8.9.3 and 11.5"},
        "A default may be written, and isn't in the normal form.",
        [
            (
                "request-with-written-defaults",
                "an ILL-REQUEST with its four defaults",
                joined("61 40 30 3E", HEAD, "85 01 01 A9 03 0A 01 01 AB 0C 80 01 00 81 01 00 82 01 01 83 01 01 8E 01 03 B0 00 95 01 00 96 01 00"),
                REQUEST,
            ),
            (
                "third-party-defaults-written",
                "a Third-Party-Info of two defaults alone",
                joined("61 3C 30 3A", HEAD, "A9 03 0A 01 01 AB 0C 80 01 00 81 01 00 82 01 01 83 01 01 B0 00 B4 06 80 01 00 85 01 02"),
                joined("61 36 30 34", HEAD, "A9 03 0A 01 01 AB 0C 80 01 00 81 01 00 82 01 01 83 01 01 B0 00 B4 00"),
            ),
            (
                "shipped-transaction-type-written",
                "a SHIPPED with its default",
                joined("63 27 30 25", HEAD, "85 01 01 9B 01 01 BD 00"),
                joined("63 24 30 22", HEAD, "9B 01 01 BD 00"),
            ),
            (
                "default-out-of-order",
                "a default after a later part",
                joined("61 37 30 35", HEAD, "A9 03 0A 01 01 AB 0C 80 01 00 81 01 00 82 01 01 83 01 01 B0 00 8E 01 03"),
                ("UnexpectedTag", 54),
            ),
        ],
    ),
    (
        "worked: sequences",
        {"clause": "X.690, 8.9"},
        "The parts of a SEQUENCE stand in their order, and the mandatory ones are there.",
        [
            (
                "received-out-of-order",
                "the two mandatory parts of a RECEIVED exchanged",
                joined("68 2D 30 2B", HEAD, "9B 01 01 9F 24 08 32 30 32 34 30 33 31 35"),
                ("UnexpectedTag", 33),
            ),
            (
                "expired-without-service-date-time",
                "an EXPIRED without its service-date-time",
                "74 11 30 0F 80 01 02 A1 0A A1 03 1B 01 47 A2 03 1B 01 51",
                ("Missing", 19, "Expired.service-date-time"),
            ),
            ("message-without-note", "a MESSAGE without its note", joined("71 1F 30 1D", HEAD), ("Missing", 33, "Message.note")),
            (
                "request-without-service-type",
                "an ILL-REQUEST with its head alone",
                joined("61 1F 30 1D", HEAD),
                ("Missing", 33, "ILL-Request.ill-service-type"),
            ),
            ("empty-apdu-sequence", "an empty SEQUENCE", "74 02 30 00", ("Missing", 4, "Expired.protocol-version-num")),
            ("transaction-id-first", "the second part first", "74 1F 30 1D 81", ("UnexpectedTag", 4)),
            ("context-tag-for-sequence", "a tag that isn't that of the SEQUENCE", "74 1F 9E", ("UnexpectedTag", 2)),
            ("wrong-tag-before-input-ends", "a wrong tag as the last octet", "74 1F 30 1D 80 01 02 A2", ("UnexpectedTag", 7)),
            ("wrong-tag-before-input-ends-and-more", "the same, and a MESSAGE's tag after it", "74 1F 30 1D 80 01 02 A2 71 00", ("UnexpectedTag", 7)),
            (
                "decoder-refused-at-tag",
                "the same, and the rest of an EXPIRED after it",
                joined("74 1F 30 1D 80 01 02 A2", HEAD),
                ("UnexpectedTag", 7),
            ),
            ("tag-before-length", "a wrong tag with the length octet FF", "75 FF", ("UnexpectedTag", 0)),
            ("no-such-application-number", "application 21", "75", ("UnexpectedTag", 0)),
        ],
    ),
    (
        "worked: parts that are left out",
        {"row": "extensions and other rows that are left out"},
        "A message with a part that is left out is refused.",
        [
            ("cancel-extensions", "the extensions of a CANCEL", joined("66 22 30 20", HEAD, "BF 31 00"), ("LeftOut", 33, "Cancel.cancel-extensions")),
            ("damaged-details", "the details of a DAMAGED", joined("70 21 30 1F", HEAD, "A5 00"), ("LeftOut", 33, "Damaged.damaged-details")),
            (
                "request-with-electronic-delivery",
                "electronic delivery",
                joined("61 37 30 35", HEAD, "BF 32 00 A9 03 0A 01 01 AB 0C 80 01 00 81 01 00 82 01 01 83 01 01 B0 00"),
                ("LeftOut", 33, "Delivery-Service.electronic-delivery"),
            ),
            ("forward-notification-left-out", "APDU 2", "62", ("LeftOut", 0, "ILL-APDU.Forward-Notification")),
            ("status-or-error-report-left-out", "APDU 19", "73", ("LeftOut", 0, "ILL-APDU.Status-Or-Error-Report")),
        ],
    ),
    (
        "worked: dates, times and texts",
        {"limit": "octets of a date, a time and a text"},
        "A date is a day, a time is of the day, and a text has the octets of its alphabet.",
        [
            (
                "time-leap-second",
                "second 60",
                "74 27 30 25 80 01 02 A1 0A A1 03 1B 01 47 A2 03 1B 01 51 A2 14 A0 12 80 08 32 30 32 34 30 32 32 39 81 06 32 33 35 39 36 30",
                OWN,
            ),
            (
                "time-end-of-day",
                "240000, which isn't 000000",
                "74 27 30 25 80 01 02 A1 0A A1 03 1B 01 47 A2 03 1B 01 51 A2 14 A0 12 80 08 32 30 32 34 30 32 32 39 81 06 32 34 30 30 30 30",
                OWN,
            ),
            (
                "time-start-of-day",
                "000000",
                "74 27 30 25 80 01 02 A1 0A A1 03 1B 01 47 A2 03 1B 01 51 A2 14 A0 12 80 08 32 30 32 34 30 32 32 39 81 06 30 30 30 30 30 30",
                OWN,
            ),
            (
                "time-after-end-of-day",
                "240001",
                "74 27 30 25 80 01 02 A1 0A A1 03 1B 01 47 A2 03 1B 01 51 A2 14 A0 12 80 08 32 30 32 34 30 32 32 39 81 06 32 34 30 30 30 31",
                ("BadTime", 33),
            ),
            (
                "thirtieth-of-february",
                "30 February",
                "74 1F 30 1D 80 01 02 A1 0A A1 03 1B 01 47 A2 03 1B 01 51 A2 0C A0 0A 80 08 32 30 32 34 30 32 33 30",
                ("BadDate", 23),
            ),
            (
                "accent-octet-accepted",
                "the octet E9 in a GeneralString",
                "74 1F 30 1D 80 01 02 A1 0A A1 03 1B 01 E9 A2 03 1B 01 51 A2 0C A0 0A 80 08 32 30 32 34 30 32 32 39",
                OWN,
            ),
            (
                "amount-with-asterisk",
                "* in an amount",
                joined("6A 39 30 37", HEAD, "9F 25 08 32 30 32 34 30 32 32 39 BF 27 0C 80 03 55 53 44 81 05 31 32 2A 35 30"),
                ("BadText", 52),
            ),
        ],
    ),
    (
        "worked: the end of the input",
        {"cause": "Truncated, Overrun and TrailingBytes"},
        "The octets are one message, from the first to the last.",
        [
            ("empty-input-decode", "no octets", joined(), ("Truncated", 0)),
            ("expired-first-five-octets", "the first five octets of an EXPIRED", "74 1F 30 1D 80", ("Truncated", 5)),
            ("content-not-whole", "a content that isn't whole isn't judged", "74 1F 30 1D 80 02 00", ("Truncated", 7)),
            ("decoder-finished-early", "the first two octets of an EXPIRED", "74 1F", ("Truncated", 2)),
            ("endless-zeros", "zeros, on and on", joined(bytes(1000)), ("BadTag", 0)),
            ("octets-after-the-message", "an EXPIRED twice", joined("74 1F 30 1D", HEAD, "74 1F 30 1D", HEAD), ("TrailingBytes", 33)),
            ("primitive-passes-its-sequence", "a number that passes its SEQUENCE, where the input ends, too", "74 1F 30 1D 80 1C", ("Overrun", 4)),
            ("sequence-passes-its-wrapper", "a SEQUENCE that passes the APDU", "74 05 30 1D", ("Overrun", 2)),
            ("header-passes-its-wrapper", "a header that passes the APDU", "74 01 30", ("Overrun", 2)),
        ],
    ),
    (
        "worked: sizes",
        {"limit": "octets of a message and of a normal form: 1,048,576"},
        "A message and its normal form have at most 1,048,576 octets.",
        [
            (
                "message-of-the-largest-first-size",
                "a MESSAGE of 65,535 octets",
                joined("71 82 FF FB 30 82 FF F7", HEAD, "BF 2E 82 FF D5 1B 82 FF D1", bytes.fromhex("41") * 65489),
                OWN,
            ),
            (
                "note-within-the-second-limit",
                "a MESSAGE of 65,536 octets",
                joined("71 82 FF FC 30 82 FF F8", HEAD, "BF 2E 82 FF D6 1B 82 FF D2", bytes.fromhex("41") * 65490),
                OWN,
            ),
            (
                "message-new-past-second-limit",
                "a MESSAGE of 1,048,577 octets",
                joined("71 83 0F FF FC 30 83 0F FF F7", HEAD, "BF 2E 83 0F FF D4 1B 83 0F FF CF", bytes.fromhex("41") * 1048527),
                ("TooLong", 0),
            ),
            ("length-within-the-second-limit", "a length of 65,536, and the input ends", "74 83 01 00 00", ("Truncated", 5)),
            ("integer-within-the-second-limit", "a number of 65,536 octets, and the input ends", "74 80 30 80 80 84 00 01 00 00", ("Truncated", 10)),
            (
                "normal-form-of-the-largest-size",
                "1,048,573 octets, and 1,048,576 in normal form",
                joined("71 80 30 80", HEAD, "BF 2E 80 1B 83 0F FF CE", bytes.fromhex("41") * 1048526, bytes.fromhex("00") * 6),
                joined("71 83 0F FF FB 30 83 0F FF F6", HEAD, "BF 2E 83 0F FF D3 1B 83 0F FF CE", bytes.fromhex("41") * 1048526),
            ),
            (
                "normal-form-past-the-limit",
                "1,048,574 octets, and 1,048,577 in normal form",
                joined("71 80 30 80", HEAD, "BF 2E 80 1B 83 0F FF CF", bytes.fromhex("41") * 1048527, bytes.fromhex("00") * 6),
                ("NormalTooLong", 0),
            ),
        ],
    ),
    (
        "worked: bare tags",
        {"row": "ILL-APDU and Results"},
        "The tags of an APDU and of a result may be without the SEQUENCE inside.",
        [
            ("bare-apdu", "an EXPIRED without its 30", joined("74 1D", HEAD), EXPIRED),
            (
                "bare-result",
                "an estimate without its 30",
                joined("64 31 30 2F", HEAD, "9F 1F 01 07 BF 20 0B A7 09 A0 07 1B 05 31 32 2E 35 30"),
                ANSWER,
            ),
            (
                "bare-apdu-and-result",
                "an ILL-ANSWER and its estimate, each without its 30",
                joined("64 2F", HEAD, "9F 1F 01 07 BF 20 0B A7 09 A0 07 1B 05 31 32 2E 35 30"),
                ANSWER,
            ),
            (
                "bare-empty-result",
                "a RETRY without parts and without its 30",
                joined("64 28 30 26", HEAD, "9F 1F 01 02 BF 20 02 A2 00"),
                joined("64 2A 30 28", HEAD, "9F 1F 01 02 BF 20 04 A2 02 30 00"),
            ),
            ("bare-apdu-without-elements", "no parts at all", "74 00", ("Missing", 2, "Expired.protocol-version-num")),
            ("sequence-after-bare-elements", "a SEQUENCE after the bare parts", joined("74 1F", HEAD, "30 00"), ("UnexpectedTag", 31)),
            ("sequence-after-sequence", "a SEQUENCE after the SEQUENCE", joined("74 21 30 1D", HEAD, "30 00"), ("UnexpectedTag", 33)),
        ],
    ),
]

# contents of leaves, in a message: kind, octets, and the cause for which they are refused
LEAVES = [
    ("joined-date-pieces", "date", text("20240229"), None),
    ("boolean-empty", "boolean", "", "BadBoolean"),
    ("boolean-two-octets", "boolean", "00 00", "BadBoolean"),
    ("boolean-false", "boolean", "00", None),
    ("boolean-true-as-07", "boolean", "07", None),
    ("integer-zero", "integer", "00", None),
    ("integer-minus-128", "integer", "80", None),
    ("integer-128", "integer", "00 80", None),
    ("integer-minus-129", "integer", "FF 7F", None),
    ("integer-least", "integer", "80 00 00 00 00 00 00 00", None),
    ("integer-padded-minus-128", "integer", "FF 80", "BadInteger"),
    ("integer-padded-127", "integer", "00 7F", "BadInteger"),
    ("integer-empty", "integer", "", "BadInteger"),
    ("integer-nine-octets-from-01", "integer", "01 00 00 00 00 00 00 00 00", "IntegerTooLong"),
    ("integer-nine-octets-from-0080", "integer", "00 80 00 00 00 00 00 00 00", "IntegerTooLong"),
    ("integer-nine-zero-octets", "integer", "00 00 00 00 00 00 00 00 00", "BadInteger"),
    ("general-empty", "general", "", None),
    ("general-space", "general", "20", None),
    ("general-tilde", "general", "7E", None),
    ("general-shift-out", "general", "0E", "BadText"),
    ("general-unit-separator-accepted", "general", "1F", None),
    ("general-delete-accepted", "general", "7F", None),
    ("printable-amount", "printable", text("12.50"), None),
    ("printable-asterisk", "printable", "2A", "BadText"),
    ("printable-at", "printable", "40", "BadText"),
    ("date-year-zero-leap-day", "date", text("00000229"), None),
    ("date-leap-century", "date", text("20000229"), None),
    ("date-last-day", "date", text("99991231"), None),
    ("date-common-century", "date", text("19000229"), "BadDate"),
    ("date-month-thirteen", "date", text("20241301"), "BadDate"),
    ("date-seven-digits", "date", text("2024022"), "BadDate"),
    ("time-of-second-sixty", "time", text("235960"), None),
    ("time-of-hour-24", "time", text("240000"), None),
    ("time-of-past-24", "time", text("240001"), "BadTime"),
    ("time-of-minute-sixty", "time", text("236000"), "BadTime"),
    ("time-of-second-61", "time", text("235961"), "BadTime"),
    ("time-of-four-digits", "time", text("1200"), "BadTime"),
]
# the value of the content, where there is one
LEAF_VALUES = {
    "boolean-false": False,
    "boolean-true-as-07": True,
    "integer-zero": 0,
    "integer-minus-128": -128,
    "integer-128": 128,
    "integer-minus-129": -129,
}
LEAF_VALUES["integer-least"] = -9_223_372_036_854_775_808

OVERDUE_VALUE = {**HEAD_VALUE, "date-due": {"date-due-field": "20240229", "renewable": True}}
# what a message says
VALUES = [
    ("expired-shown-value", EXPIRED, "Expired", HEAD_VALUE),
    ("show-overdue-as-given", OVERDUE_07, "Overdue", OVERDUE_VALUE),
    ("show-overdue-normal-form", OVERDUE, "Overdue", OVERDUE_VALUE),
    (
        "request-value",
        REQUEST,
        "ILL-Request",
        with_head({**REQUEST_VALUE, "transaction-type": 1, "place-on-hold": 3, "retry-flag": False, "forward-flag": False}),
    ),
    ("show-request", REQUEST, "ILL-Request", with_head(REQUEST_VALUE)),
    ("show-empty-list", NO_TYPES, "ILL-Request", with_head({**REQUEST_VALUE, "ill-service-type": []})),
    (
        "show-answer",
        ANSWER,
        "ILL-Answer",
        with_head({"transaction-results": 7, "results-explanation": {"estimate-results": {"cost-estimate": {"general": "12.50"}}}}),
    ),
    ("show-accent-octet", expired(group=element("A1", "1B 01 E9")), "Expired", with_group("\xe9")),
    (
        "requester-id-institution-symbol-shown",
        joined("74 28 30 26", HEAD, "A3 07 A0 05 A1 03 1B 01 4C"),
        "Expired",
        {**HEAD_VALUE, "requester-id": {"person-or-institution-symbol": {"institution-symbol": {"general": "L"}}}},
    ),
]
# two messages, and whether they are the same
PAIRS = [
    ("indefinite-same-as-definite", INDEFINITE, EXPIRED, True),
    ("visible-differs-from-general", VISIBLE, EXPIRED, False),
    ("empty-sequence-differs-from-absent", EMPTY_CLIENT, REQUEST, False),
    *(
        (
            f"{first}-differs-from-{second}",
            *(expired(date=joined("80 08", text("20240229"), "81 06", text(TIMES[name]))) for name in (first, second)),
            False,
        )
        for first, second in [("leap-second", "end-of-day"), ("end-of-day", "start-of-day"), ("leap-second", "start-of-day")]
    ),
]


def books():
    book = Book("worked", "Worked rows")
    for name, source, words, rows in ROWS:
        group = book.group(name, words, **source)
        for row in rows:
            add(group, *row)
    group = book.group("worked: contents", "What a content holds, or why it holds nothing.", clause="X.690, 8.2, 8.3 and 8.23")
    for name, kind, content, cause in LEAVES:
        leaf(group, name, kind, content, cause)
    group = book.group("worked: values", "What a message says doesn't depend on how it is spelled.", clause="X.690, 8")
    for name, octets, apdu, value in VALUES:
        group.valid(name, f"the value of an {apdu}" if apdu[0] in "EIO" else f"the value of a {apdu}", joined(octets), apdu, value)
    group = book.group("worked: pairs", "Two messages are the same exactly if their normal forms are.", clause="X.690, 10 and 11")
    for name, first, second, same in PAIRS:
        said = [message(bytes(joined(octets))) for octets in (first, second)]
        assert (said[0] == said[1]) == same, name
        for side, octets, apdu in zip(("first", "second"), (first, second), said):
            group.spells(f"{name}-{side}", f"the {side} of two messages that are {'the same' if same else 'different'}", joined(octets), apdu)
    yield book


def add(group, name, comment, octets, outcome):
    octets = joined(octets)
    if isinstance(outcome, tuple):
        cause, at, *part = outcome
        group.refused(name, comment, Marked(octets, at), cause, *part)
        return
    apdu = message(bytes(octets))
    assert Writer().value("IllApdu", apdu, None) == (octets if outcome is OWN else joined(outcome)), name
    group.spells(name, comment, octets, apdu)


PLACES = {
    "boolean": (lambda content: message_of("Cancel-Reply", element("9F 23", content)), "Cancel-Reply", lambda value: with_head(answer=value), 33),
    "integer": (lambda content: expired(version=element("80", content)), "Expired", lambda value: with_head(protocol_version_num=value), 4),
    "general": (lambda content: expired(group=element("A1", element("1B", content))), "Expired", with_group, 11),
    "printable": (
        lambda content: message_of("Returned", element("9F 25", text("20240229")), element("BF 27", element("81", content))),
        "Returned",
        lambda value: with_head(date_returned="20240229", insured_for={"monetary-value": value}),
        47,
    ),
    "date": (lambda content: expired(date=element("80", content)), "Expired", with_date, 23),
    "time": (
        lambda content: expired(date=joined("80 08", text("20240229"), element("81", content))),
        "Expired",
        lambda value: with_date("20240229", value),
        33,
    ),
}


def leaf(group, name, kind, content, cause):
    make, apdu, value_of, at = PLACES[kind]
    octets, comment = make(content), f"the content {joined(content).hex(' ').upper() or 'of no octets'} of kind {kind}"
    if cause:
        group.refused(name, comment, Marked(octets, at), cause)
    else:
        value = LEAF_VALUES[name] if name in LEAF_VALUES else joined(content).decode("latin-1")
        group.valid(name, comment, octets, apdu, value_of(value))
