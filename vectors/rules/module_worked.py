"""Worked rows of the module profile: octets and what comes of them, both written down by hand. The judge has to find the same.

Octets are written as what stands before the version, the transaction and the service of a message, and what stands after them; or whole.
"""
from model.encoder import Writer
from model.judge import message

from rules.book import Book
from rules.messages import HEAD
from rules.octets import Marked, joined

# the octets are their own normal form
OWN = None

# messages that are their own normal form
NORMAL_FORMS = [
    ("extension-with-sequence", ("74 2D 30 2B", "BF 31 0B 30 09 80 01 01 A2 04 30 02 05 00"), OWN),
    ("extensions-empty-list", ("74 22 30 20", "BF 31 00"), OWN),
    ("extensions-two", ("66 35 30 33", "BF 31 13 30 07 80 01 01 A2 02 05 00 30 08 80 01 02 A2 03 04 01 41"), OWN),
    ("overdue-extensions", ("6C 3A 30 38", "BF 29 0A 80 08 32 30 32 34 30 32 32 39 BF 31 0B 30 09 30 07 80 01 01 A2 02 05 00"), OWN),
    ("overdue-extensions-empty-list", ("6C 31 30 2F", "BF 29 0A 80 08 32 30 32 34 30 32 32 39 BF 31 02 30 00"), OWN),
    ("foreign-true-stays", ("74 2C 30 2A", "BF 31 0A 30 08 80 01 01 A2 03 01 01 05"), OWN),
    ("foreign-padded-integer-stays", ("74 2D 30 2B", "BF 31 0B 30 09 80 01 01 A2 04 02 02 00 05"), OWN),
    ("foreign-segments-stay", ("74 2E 30 2C", "BF 31 0C 30 0A 80 01 01 A2 05 3A 03 04 01 4A"), OWN),
    ("foreign-set-order-stays", ("74 31 30 2F", "BF 31 0F 30 0D 80 01 01 A2 08 31 06 02 01 02 02 01 01"), OWN),
    ("foreign-external-is-a-tree", ("74 2B 30 29", "BF 31 09 30 07 80 01 01 A2 02 28 00"), OWN),
    ("foreign-tags-31-and-256", ("74 31 30 2F", "BF 31 0F 30 0D 80 01 01 A2 08 BF 1F 05 9F 82 00 01 41"), OWN),
    ("foreign-highest-tag", ("74 2F 30 2D", "BF 31 0D 30 0B 80 01 01 A2 06 DF FF FF FF 7F 00"), OWN),
    ("foreign-universal-0-constructed", ("74 2B 30 29", "BF 31 09 30 07 80 01 01 A2 02 20 00"), OWN),
    (
        "foreign-20-levels",
        (
            "74 51 30 4F",
            "BF 31 2F 30 2D 80 01 01 A2 28 30 26 30 24 30 22 30 20 30 1E 30 1C 30 1A 30 18 30 16 30 14 30 12 30 10 30 0E 30 0C 30 0A 30 08 30 06 "
            "30 04 30 02 05 00",
        ),
        OWN,
    ),
    ("external-octets", ("6A 3F 30 3D", "B1 13 28 11 06 07 2A 86 48 CE 13 05 0A 81 06 58 31 32 33 34 35 9F 25 08 32 30 32 34 30 32 32 39"), OWN),
    ("external-asn1", ("6A 3E 30 3C", "B1 12 28 10 06 07 2A 86 48 CE 13 05 0A A0 05 30 03 02 01 05 9F 25 08 32 30 32 34 30 32 32 39"), OWN),
    ("external-bits", ("6A 35 30 33", "B1 09 28 07 02 01 05 82 02 03 F8 9F 25 08 32 30 32 34 30 32 32 39"), OWN),
    ("external-descriptor", ("6A 35 30 33", "B1 09 28 07 07 03 1B 0E FF 81 00 9F 25 08 32 30 32 34 30 32 32 39"), OWN),
    ("external-large-arc", ("6A 3D 30 3B", "B1 11 28 0F 06 0B 69 FF FF FF FF FF FF FF FF FF 7F 81 00 9F 25 08 32 30 32 34 30 32 32 39"), OWN),
    ("externals-empty", ("6A 2C 30 2A", "B1 00 9F 25 08 32 30 32 34 30 32 32 39"), OWN),
    (
        "item-external",
        ("61 42 30 40", "A9 03 0A 01 01 AB 0C 80 01 00 81 01 00 82 01 01 83 01 01 B0 0E B1 05 28 03 81 01 41 B4 05 28 03 82 01 00"),
        OWN,
    ),
    ("specific-service", ("61 3E 30 3C", "A9 00 AA 09 28 07 06 01 2A A0 02 05 00 AB 0C 80 01 00 81 01 00 82 01 01 83 01 01 B0 00 B1 00"), OWN),
    ("specific-results", ("64 2C 30 2A", "9F 1F 01 03 BF 21 04 28 02 81 00 B1 00"), OWN),
    ("delivery-electronic", ("61 3D 30 3B", "BF 32 06 30 04 A5 02 A0 00 A9 03 0A 01 01 AB 0C 80 01 00 81 01 00 82 01 01 83 01 01 B0 00"), OWN),
    (
        "delivery-every-row",
        (
            "61 60 30 5E",
            "BF 32 29 30 27 A0 07 80 01 2A A1 02 05 00 A1 07 82 01 2A A3 02 04 00 A4 03 1B 01 41 A5 02 A1 00 A6 02 1A 00 87 06 31 32 30 30 30 30 "
            "A9 03 0A 01 01 AB 0C 80 01 00 81 01 00 82 01 01 83 01 01 B0 00",
        ),
        OWN,
    ),
    ("delivery-none", ("61 37 30 35", "BF 32 00 A9 03 0A 01 01 AB 0C 80 01 00 81 01 00 82 01 01 83 01 01 B0 00"), OWN),
    ("shipped-via-electronic", ("63 2B 30 29", "9B 01 01 BD 07 BF 32 04 A5 02 A0 00"), OWN),
    ("will-supply-electronic", ("64 37 30 35", "9F 1F 01 05 BF 20 11 A5 0F 30 0D A0 03 0A 01 1E A4 06 30 04 A5 02 A0 00"), OWN),
    (
        "will-supply",
        ("64 44 30 42", "9F 1F 01 05 BF 20 1E A5 1C 30 1A A0 03 0A 01 1A A1 0A 1A 08 32 30 32 34 30 32 32 39 A2 07 30 05 A4 03 1B 01 43"),
        OWN,
    ),
    ("units", ("63 32 30 30", "9B 01 01 BD 0E A8 0C 30 0A A0 03 0A 01 01 A1 03 02 01 02"), OWN),
    ("proposed-physical", ("64 34 30 32", "9F 1F 01 01 BF 20 0E A1 0C 30 0A 80 01 1E A7 05 1B 03 46 61 78"), OWN),
    ("forward-notification", ("62 2E 30 2C", "A4 00 B8 00 B9 00 BF 30 03 1B 01 4E BF 31 00"), OWN),
    ("report-minimal", ("73 1F 30 1D", ""), OWN),
    (
        "report-status",
        (
            "73 55 30 53",
            "BF 2C 33 A0 2E 80 08 32 30 32 34 30 32 32 39 85 08 32 30 32 34 30 32 32 39 86 01 04 87 08 32 30 32 34 30 32 32 39 A8 00 89 01 01 8A "
            "01 05 AB 03 1B 01 4E 81 01 08",
        ),
        OWN,
    ),
    ("report-user-error", ("73 32 30 30", "BF 2D 10 A0 03 1B 01 43 81 01 01 A2 06 A0 04 A0 00 A1 00"), OWN),
    ("report-provider-error", ("73 34 30 32", "BF 2D 12 A0 03 1B 01 43 81 01 02 A3 08 A2 06 80 01 03 81 01 02"), OWN),
    ("damaged-whole", ("70 23 30 21", "A5 02 81 00"), OWN),
    ("damaged-units", ("70 2C 30 2A", "A5 0B 80 01 2A A2 06 02 01 03 02 01 04"), OWN),
    ("general-escape", "74 1F 30 1D 80 01 02 A1 0A A1 03 1B 01 1B A2 03 1B 01 51 A2 0C A0 0A 80 08 32 30 32 34 30 32 32 39", OWN),
    ("expired", ("74 1F 30 1D", ""), OWN),
]
# messages and their normal forms
SPELLINGS = [
    (
        "extension-indefinite",
        ("74 34 30 32", "BF 31 12 30 10 80 01 01 81 01 00 A2 80 30 80 05 00 00 00 00 00"),
        ("74 2D 30 2B", "BF 31 0B 30 09 80 01 01 A2 04 30 02 05 00"),
    ),
    (
        "extension-critical-true-as-07",
        ("74 2E 30 2C", "BF 31 0C 30 0A 80 01 01 81 01 07 A2 02 05 00"),
        ("74 2E 30 2C", "BF 31 0C 30 0A 80 01 01 81 01 FF A2 02 05 00"),
    ),
    (
        "extension-critical-false-written",
        ("74 2E 30 2C", "BF 31 0C 30 0A 80 01 01 81 01 00 A2 02 05 00"),
        ("74 2B 30 29", "BF 31 09 30 07 80 01 01 A2 02 05 00"),
    ),
    (
        "foreign-long-lengths",
        ("74 33 30 31", "BF 31 11 30 0F 80 01 01 A2 0A 30 84 00 00 00 04 05 82 00 00"),
        ("74 2D 30 2B", "BF 31 0B 30 09 80 01 01 A2 04 30 02 05 00"),
    ),
    (
        "foreign-length-126-octets",
        (
            "74 81 AD 30 81 AA 80 01 02 A1 0A A1 03 1B 01 47 A2 03 1B 01 51 A2 0C A0 0A 80 08 32 30 32 34 30 32 32 39 BF 31 81 89 30 81 86 80 01 "
            "01 A2 81 80 05 FE 00 00 00 00 00 00 00 00 00 00 00 00 00 00 00 00 00 00 00 00 00 00 00 00 00 00 00 00 00 00 00 00 00 00 00 00 00 00 "
            "00 00 00 00 00 00 00 00 00 00 00 00 00 00 00 00 00 00 00 00 00 00 00 00 00 00 00 00 00 00 00 00 00 00 00 00 00 00 00 00 00 00 00 00 "
            "00 00 00 00 00 00 00 00 00 00 00 00 00 00 00 00 00 00 00 00 00 00 00 00 00 00 00 00 00 00 00 00 00 00 00 00 00 00 00 00 00 00 00 00"
        ),
        ("74 2B 30 29", "BF 31 09 30 07 80 01 01 A2 02 05 00"),
    ),
    (
        "foreign-nested-indefinite",
        ("74 3C 30 3A", "BF 31 1A 30 18 80 01 01 A2 13 30 80 30 80 24 80 04 01 41 00 00 00 00 A1 80 00 00 00 00"),
        ("74 34 30 32", "BF 31 12 30 10 80 01 01 A2 0B 30 09 30 05 24 03 04 01 41 A1 00"),
    ),
    (
        "foreign-level-21-end-mark",
        (
            "74 79 30 77",
            "BF 31 57 30 55 80 01 01 A2 50 30 80 30 80 30 80 30 80 30 80 30 80 30 80 30 80 30 80 30 80 30 80 30 80 30 80 30 80 30 80 30 80 30 80 "
            "30 80 30 80 30 80 00 00 00 00 00 00 00 00 00 00 00 00 00 00 00 00 00 00 00 00 00 00 00 00 00 00 00 00 00 00 00 00 00 00 00 00 00 00 "
            "00 00",
        ),
        (
            "74 51 30 4F",
            "BF 31 2F 30 2D 80 01 01 A2 28 30 26 30 24 30 22 30 20 30 1E 30 1C 30 1A 30 18 30 16 30 14 30 12 30 10 30 0E 30 0C 30 0A 30 08 30 06 "
            "30 04 30 02 30 00",
        ),
    ),
    (
        "deepest-normal-form",
        (
            "64 61",
            "9F 1F 01 01 BF 20 3D A1 3B 80 01 1E BF 32 35 30 33 A0 2D 80 01 2A A1 28 30 26 30 24 30 22 30 20 30 1E 30 1C 30 1A 30 18 30 16 30 14 "
            "30 12 30 10 30 0E 30 0C 30 0A 30 08 30 06 30 04 30 02 05 00 A5 02 A0 00",
        ),
        (
            "64 65 30 63",
            "9F 1F 01 01 BF 20 3F A1 3D 30 3B 80 01 1E BF 32 35 30 33 A0 2D 80 01 2A A1 28 30 26 30 24 30 22 30 20 30 1E 30 1C 30 1A 30 18 30 16 "
            "30 14 30 12 30 10 30 0E 30 0C 30 0A 30 08 30 06 30 04 30 02 05 00 A5 02 A0 00",
        ),
    ),
    (
        "external-unused-bits-set",
        ("6A 35 30 33", "B1 09 28 07 02 01 05 82 02 03 FF 9F 25 08 32 30 32 34 30 32 32 39"),
        ("6A 35 30 33", "B1 09 28 07 02 01 05 82 02 03 F8 9F 25 08 32 30 32 34 30 32 32 39"),
    ),
    (
        "external-bits-in-segments",
        ("6A 38 30 36", "B1 0C 28 0A A2 08 03 02 00 A5 03 02 04 F7 9F 25 08 32 30 32 34 30 32 32 39"),
        ("6A 33 30 31", "B1 07 28 05 82 03 04 A5 F0 9F 25 08 32 30 32 34 30 32 32 39"),
    ),
    (
        "external-bits-in-nested-segments",
        ("6A 43 30 41", "B1 17 28 15 A2 80 23 80 03 01 00 03 02 00 A5 00 00 23 00 03 02 07 FF 00 00 9F 25 08 32 30 32 34 30 32 32 39"),
        ("6A 33 30 31", "B1 07 28 05 82 03 07 A5 80 9F 25 08 32 30 32 34 30 32 32 39"),
    ),
    (
        "external-bits-no-segments",
        ("6A 30 30 2E", "B1 04 28 02 A2 00 9F 25 08 32 30 32 34 30 32 32 39"),
        ("6A 31 30 2F", "B1 05 28 03 82 01 00 9F 25 08 32 30 32 34 30 32 32 39"),
    ),
    (
        "external-octets-in-segments",
        ("6A 3A 30 38", "B1 0E 28 0C A1 0A 04 01 58 24 80 04 01 31 00 00 9F 25 08 32 30 32 34 30 32 32 39"),
        ("6A 32 30 30", "B1 06 28 04 81 02 58 31 9F 25 08 32 30 32 34 30 32 32 39"),
    ),
    (
        "external-descriptor-in-segments",
        ("6A 37 30 35", "B1 0B 28 09 27 05 04 01 41 04 00 81 00 9F 25 08 32 30 32 34 30 32 32 39"),
        ("6A 33 30 31", "B1 07 28 05 07 01 41 81 00 9F 25 08 32 30 32 34 30 32 32 39"),
    ),
    (
        "supply-date-in-segments",
        ("64 3F 30 3D", "9F 1F 01 05 BF 20 19 A5 17 30 15 A0 03 0A 01 1A A1 0E 3A 0C 04 04 32 30 32 34 04 04 30 32 32 39"),
        ("64 3B 30 39", "9F 1F 01 05 BF 20 15 A5 13 30 11 A0 03 0A 01 1A A1 0A 1A 08 32 30 32 34 30 32 32 39"),
    ),
    (
        "proposed-electronic-bare",
        ("64 34 30 32", "9F 1F 01 01 BF 20 0E A1 0C 80 01 1E BF 32 06 30 04 A5 02 A0 00"),
        ("64 36 30 34", "9F 1F 01 01 BF 20 10 A1 0E 30 0C 80 01 1E BF 32 06 30 04 A5 02 A0 00"),
    ),
    ("forward-notification-bare", ("62 21", "A4 00 B9 00"), ("62 23 30 21", "A4 00 B9 00")),
    ("report-bare", ("73 21", "9F 2B 01 01"), ("73 23 30 21", "9F 2B 01 01")),
]
# octets that are refused: the cause, its offset and the part that it names
REFUSALS = [
    ("extension-without-identifier", ("74 28 30 26", "BF 31 06 30 04 A2 02 05 00"), ("UnexpectedTag", 38)),
    ("extension-without-item", ("74 27 30 25", "BF 31 05 30 03 80 01 01"), ("Missing", 41, "Extension.item")),
    ("extension-item-primitive", ("74 2A 30 28", "BF 31 08 30 06 80 01 01 82 01 41"), ("WrongForm", 41)),
    ("extension-item-empty", ("74 29 30 27", "BF 31 07 30 05 80 01 01 A2 00"), ("Missing", 43, "Extension.item")),
    ("extension-item-empty-indefinite", ("74 2B 30 29", "BF 31 09 30 07 80 01 01 A2 80 00 00"), ("Missing", 43, "Extension.item")),
    ("extension-two-items", ("74 2D 30 2B", "BF 31 0B 30 09 80 01 01 A2 04 05 00 05 00"), ("UnexpectedTag", 45)),
    ("extensions-primitive", ("74 22 30 20", "9F 31 00"), ("WrongForm", 33)),
    ("extensions-explicit-in-expired", ("74 2D 30 2B", "BF 31 0B 30 09 30 07 80 01 01 A2 02 05 00"), ("UnexpectedTag", 38)),
    (
        "overdue-extensions-implicit",
        ("6C 38 30 36", "BF 29 0A 80 08 32 30 32 34 30 32 32 39 BF 31 09 30 07 80 01 01 A2 02 05 00"),
        ("UnexpectedTag", 51),
    ),
    ("overdue-extensions-no-list", ("6C 2F 30 2D", "BF 29 0A 80 08 32 30 32 34 30 32 32 39 BF 31 00"), ("Missing", 49, "Overdue.overdue-extensions")),
    ("foreign-tag-too-high", ("74 30 30 2E", "BF 31 0E 30 0C 80 01 01 A2 07 DF 81 80 80 80 00 00"), ("BadTag", 43)),
    ("foreign-high-form-of-30", ("74 2E 30 2C", "BF 31 0C 30 0A 80 01 01 A2 05 30 03 BF 1E 00"), ("BadTag", 45)),
    ("foreign-universal-0-primitive", ("74 2B 30 29", "BF 31 09 30 07 80 01 01 A2 02 00 00"), ("BadTag", 43)),
    ("foreign-bad-end", ("74 2E 30 2C", "BF 31 0C 30 0A 80 01 01 A2 05 30 80 00 01 00"), ("BadEnd", 45)),
    ("foreign-indefinite-primitive", ("74 2D 30 2B", "BF 31 0B 30 09 80 01 01 A2 04 30 02 05 80"), ("BadLength", 45)),
    ("foreign-length-ff", ("74 2B 30 29", "BF 31 09 30 07 80 01 01 A2 02 05 FF"), ("BadLength", 43)),
    ("foreign-overrun", ("74 2E 30 2C", "BF 31 0C 30 0A 80 01 01 A2 05 30 03 04 05 41"), ("Overrun", 45)),
    ("foreign-not-ended", ("74 2D 30 2B", "BF 31 0B 30 09 80 01 01 A2 04 30 80 05 00"), ("Overrun", 47)),
    ("foreign-cut", ("74 80 30 80", "BF 31 80 30 80 80 01 01 A2 80 30 80 05"), ("Truncated", 46)),
    (
        "foreign-21-levels",
        (
            "74 53 30 51",
            "BF 31 31 30 2F 80 01 01 A2 2A 30 28 30 26 30 24 30 22 30 20 30 1E 30 1C 30 1A 30 18 30 16 30 14 30 12 30 10 30 0E 30 0C 30 0A 30 08 "
            "30 06 30 04 30 02 05 00",
        ),
        ("TooDeep", 83),
    ),
    (
        "foreign-level-21-bad-tag",
        (
            "74 80 30 80",
            "BF 31 80 30 80 80 01 01 A2 80 30 80 30 80 30 80 30 80 30 80 30 80 30 80 30 80 30 80 30 80 30 80 30 80 30 80 30 80 30 80 30 80 30 80 "
            "30 80 30 80 30 80 1F 1E",
        ),
        ("BadTag", 83),
    ),
    (
        "foreign-level-21-without-length",
        (
            "74 80 30 80",
            "BF 31 80 30 80 80 01 01 A2 80 30 80 30 80 30 80 30 80 30 80 30 80 30 80 30 80 30 80 30 80 30 80 30 80 30 80 30 80 30 80 30 80 30 80 "
            "30 80 30 80 30 80 05",
        ),
        ("TooDeep", 83),
    ),
    (
        "external-bits-short-first-segment",
        ("6A 3B 30 39", "B1 0F 28 0D 02 01 05 A2 08 03 02 04 F0 03 02 00 A5 9F 25 08 32 30 32 34 30 32 32 39"),
        ("BadBits", 40),
    ),
    (
        "external-bits-segment-after-short-one",
        ("6A 3D 30 3B", "B1 11 28 0F 02 01 05 A2 80 23 04 03 02 04 F0 23 00 00 00 9F 25 08 32 30 32 34 30 32 32 39"),
        ("BadBits", 40),
    ),
    ("external-bits-without-count", ("6A 33 30 31", "B1 07 28 05 02 01 05 82 00 9F 25 08 32 30 32 34 30 32 32 39"), ("BadBits", 40)),
    ("external-bits-count-8", ("6A 32 30 30", "B1 06 28 04 82 02 08 00 9F 25 08 32 30 32 34 30 32 32 39"), ("BadBits", 37)),
    ("external-bits-count-of-nothing", ("6A 31 30 2F", "B1 05 28 03 82 01 01 9F 25 08 32 30 32 34 30 32 32 39"), ("BadBits", 37)),
    ("external-bits-octet-segment", ("6A 34 30 32", "B1 08 28 06 A2 04 04 02 00 A5 9F 25 08 32 30 32 34 30 32 32 39"), ("UnexpectedTag", 39)),
    ("external-oid-empty", ("6A 32 30 30", "B1 06 28 04 06 00 81 00 9F 25 08 32 30 32 34 30 32 32 39"), ("BadOid", 37)),
    ("external-oid-not-ended", ("6A 33 30 31", "B1 07 28 05 06 01 80 81 00 9F 25 08 32 30 32 34 30 32 32 39"), ("BadOid", 37)),
    ("external-oid-padded-first", ("6A 34 30 32", "B1 08 28 06 06 02 80 01 81 00 9F 25 08 32 30 32 34 30 32 32 39"), ("BadOid", 37)),
    ("external-oid-padded-later", ("6A 35 30 33", "B1 09 28 07 06 03 2A 80 01 81 00 9F 25 08 32 30 32 34 30 32 32 39"), ("BadOid", 37)),
    ("external-oid-constructed", ("6A 35 30 33", "B1 09 28 07 26 03 06 01 2A 81 00 9F 25 08 32 30 32 34 30 32 32 39"), ("WrongForm", 37)),
    ("external-rows-out-of-order", ("6A 36 30 34", "B1 0A 28 08 02 01 05 06 01 2A 81 00 9F 25 08 32 30 32 34 30 32 32 39"), ("UnexpectedTag", 40)),
    ("external-without-encoding", ("6A 31 30 2F", "B1 05 28 03 06 01 2A 9F 25 08 32 30 32 34 30 32 32 39"), ("Missing", 40, "External.encoding")),
    ("external-empty", ("6A 2E 30 2C", "B1 02 28 00 9F 25 08 32 30 32 34 30 32 32 39"), ("Missing", 37, "External.encoding")),
    ("external-two-encodings", ("6A 33 30 31", "B1 07 28 05 81 00 82 01 00 9F 25 08 32 30 32 34 30 32 32 39"), ("UnexpectedTag", 39)),
    ("external-asn1-empty", ("6A 30 30 2E", "B1 04 28 02 A0 00 9F 25 08 32 30 32 34 30 32 32 39"), ("Missing", 39, "Encoding.single-asn1-type")),
    ("external-as-sequence", ("6A 30 30 2E", "B1 04 30 02 81 00 9F 25 08 32 30 32 34 30 32 32 39"), ("UnexpectedTag", 35)),
    (
        "item-external-implicit",
        ("61 39 30 37", "A9 03 0A 01 01 AB 0C 80 01 00 81 01 00 82 01 01 83 01 01 B0 05 B1 03 81 01 41"),
        ("UnexpectedTag", 56),
    ),
    (
        "item-external-empty-wrapper",
        ("61 36 30 34", "A9 03 0A 01 01 AB 0C 80 01 00 81 01 00 82 01 01 83 01 01 B0 02 B4 00"),
        ("Missing", 56, "Item-Id.system-no"),
    ),
    (
        "delivery-without-details",
        ("61 39 30 37", "BF 32 02 30 00 A9 03 0A 01 01 AB 0C 80 01 00 81 01 00 82 01 01 83 01 01 B0 00"),
        ("Missing", 38, "Electronic-Delivery.e-delivery-details"),
    ),
    (
        "delivery-details-empty",
        ("61 3B 30 39", "BF 32 04 30 02 A5 00 A9 03 0A 01 01 AB 0C 80 01 00 81 01 00 82 01 01 83 01 01 B0 00"),
        ("Missing", 40, "Electronic-Delivery.e-delivery-details"),
    ),
    (
        "delivery-without-parameters",
        ("61 42 30 40", "BF 32 0B 30 09 A0 03 80 01 2A A5 02 A0 00 A9 03 0A 01 01 AB 0C 80 01 00 81 01 00 82 01 01 83 01 01 B0 00"),
        ("Missing", 43, "E-Delivery-Service.e-delivery-parameters"),
    ),
    (
        "document-type-parameters-empty",
        ("61 44 30 42", "BF 32 0D 30 0B A1 05 82 01 2A A3 00 A5 02 A0 00 A9 03 0A 01 01 AB 0C 80 01 00 81 01 00 82 01 01 83 01 01 B0 00"),
        ("Missing", 45, "Document-Type.document-type-parameters"),
    ),
    (
        "delivery-bad-mode",
        ("61 45 30 43", "BF 32 0E 30 0C A0 06 80 00 A1 02 05 00 A5 02 A0 00 A9 03 0A 01 01 AB 0C 80 01 00 81 01 00 82 01 01 83 01 01 B0 00"),
        ("BadOid", 40),
    ),
    ("will-supply-electronic-implicit", ("64 35 30 33", "9F 1F 01 05 BF 20 0F A5 0D 30 0B A0 03 0A 01 1E A4 04 A5 02 A0 00"), ("UnexpectedTag", 51)),
    (
        "will-supply-as-in-profile-2",
        ("64 3E 30 3C", "9F 1F 01 05 BF 20 18 A5 16 30 14 80 01 1A 81 08 32 30 32 34 30 32 32 39 A2 05 A4 03 1B 01 43"),
        ("WrongForm", 44),
    ),
    ("supply-date-implicit", ("64 39 30 37", "9F 1F 01 05 BF 20 13 A5 11 30 0F A0 03 0A 01 1A 81 08 32 30 32 34 30 32 32 39"), ("WrongForm", 49)),
    (
        "supply-date-segments-of-profile-2",
        ("64 3B 30 39", "9F 1F 01 05 BF 20 15 A5 13 30 11 A0 03 0A 01 1A A1 0A 04 08 32 30 32 34 30 32 32 39"),
        ("UnexpectedTag", 51),
    ),
    ("supply-date-no-day", ("64 3B 30 39", "9F 1F 01 05 BF 20 15 A5 13 30 11 A0 03 0A 01 1A A1 0A 1A 08 32 30 32 34 30 32 33 30"), ("BadDate", 51)),
    ("return-to-address-implicit", ("64 36 30 34", "9F 1F 01 05 BF 20 10 A5 0E 30 0C A0 03 0A 01 1A A2 05 A4 03 1B 01 43"), ("UnexpectedTag", 51)),
    (
        "return-to-address-empty",
        ("64 31 30 2F", "9F 1F 01 05 BF 20 0B A5 09 30 07 A0 03 0A 01 1A A2 00"),
        ("Missing", 51, "Will-Supply.return-to-address"),
    ),
    ("units-as-in-profile-2", ("63 2E 30 2C", "9B 01 01 BD 0A A8 08 30 06 80 01 01 81 01 02"), ("WrongForm", 42)),
    ("units-medium-empty", ("63 2A 30 28", "9B 01 01 BD 06 A8 04 30 02 A0 00"), ("Missing", 44, "Units-Per-Medium.medium")),
    ("proposed-before-location-list", ("64 33 30 31", "9F 1F 01 01 BF 20 0D A1 0B 30 09 80 01 1E A7 02 1B 00 A2 00"), ("UnexpectedTag", 51)),
    ("forward-without-responder", ("62 1F 30 1D", ""), ("Missing", 33, "Forward-Notification.responder-id")),
    ("forward-without-responder-first", ("62 21 30 1F", "B9 00"), ("UnexpectedTag", 33)),
    ("forward-without-intermediary", ("62 21 30 1F", "A4 00"), ("Missing", 35, "Forward-Notification.intermediary-id")),
    ("forward-empty", "62 00", ("Missing", 2, "Forward-Notification.protocol-version-num")),
    (
        "report-status-without-provider",
        ("73 3D 30 3B", "BF 2C 1B A0 19 85 08 32 30 32 34 30 32 32 39 86 01 03 87 08 32 30 32 34 30 32 32 39 A8 00"),
        ("Missing", 63, "Status-Report.provider-status-report"),
    ),
    (
        "report-security-problem-empty",
        ("73 2E 30 2C", "BF 2D 0C A0 03 1B 01 43 81 01 01 A2 02 A2 00"),
        ("Missing", 48, "User-Error-Report.security-problem"),
    ),
    ("report-provider-error-empty", ("73 2C 30 2A", "BF 2D 0A A0 03 1B 01 43 81 01 02 A3 00"), ("Missing", 46, "Error-Report.provider-error-report")),
    ("damaged-null-with-content", ("70 24 30 22", "A5 03 81 01 00"), ("BadNull", 35)),
    ("damaged-bad-type", ("70 26 30 24", "A5 05 80 01 80 81 00"), ("BadOid", 35)),
    ("damaged-no-portion", ("70 21 30 1F", "A5 00"), ("Missing", 35, "Damaged-Details.damaged-portion")),
    ("damaged-two-portions", ("70 25 30 23", "A5 04 81 00 A2 00"), ("UnexpectedTag", 37)),
    ("visible-high-octet", "74 1F 30 1D 80 01 02 A1 0A A1 03 1A 01 E9 A2 03 1B 01 51 A2 0C A0 0A 80 08 32 30 32 34 30 32 32 39", ("BadText", 11)),
]
# messages of profile 2
SPELLINGS_IN_PROFILE_2 = [
    (
        "will-supply-as-in-profile-2-in-profile-2",
        ("64 3E 30 3C", "9F 1F 01 05 BF 20 18 A5 16 30 14 80 01 1A 81 08 32 30 32 34 30 32 32 39 A2 05 A4 03 1B 01 43"),
        OWN,
    ),
    ("units-as-in-profile-2-in-profile-2", ("63 2E 30 2C", "9B 01 01 BD 0A A8 08 30 06 80 01 01 81 01 02"), OWN),
    ("expired-in-profile-2", ("74 1F 30 1D", ""), OWN),
]
# octets that profile 2 refuses
REFUSALS_IN_PROFILE_2 = [
    (
        "extension-with-sequence-in-profile-2",
        ("74 2D 30 2B", "BF 31 0B 30 09 80 01 01 A2 04 30 02 05 00"),
        ("LeftOut", 33, "Expired.expired-extensions"),
    ),
    (
        "external-octets-in-profile-2",
        ("6A 3F 30 3D", "B1 13 28 11 06 07 2A 86 48 CE 13 05 0A 81 06 58 31 32 33 34 35 9F 25 08 32 30 32 34 30 32 32 39"),
        ("LeftOut", 33, "Returned.supplemental-item-description"),
    ),
    (
        "item-external-in-profile-2",
        ("61 42 30 40", "A9 03 0A 01 01 AB 0C 80 01 00 81 01 00 82 01 01 83 01 01 B0 0E B1 05 28 03 81 01 41 B4 05 28 03 82 01 00"),
        ("LeftOut", 54, "Item-Id.national-bibliography-no"),
    ),
    (
        "delivery-electronic-in-profile-2",
        ("61 3D 30 3B", "BF 32 06 30 04 A5 02 A0 00 A9 03 0A 01 01 AB 0C 80 01 00 81 01 00 82 01 01 83 01 01 B0 00"),
        ("LeftOut", 33, "Delivery-Service.electronic-delivery"),
    ),
    (
        "will-supply-in-profile-2",
        ("64 44 30 42", "9F 1F 01 05 BF 20 1E A5 1C 30 1A A0 03 0A 01 1A A1 0A 1A 08 32 30 32 34 30 32 32 39 A2 07 30 05 A4 03 1B 01 43"),
        ("WrongForm", 44),
    ),
    ("units-in-profile-2", ("63 32 30 30", "9B 01 01 BD 0E A8 0C 30 0A A0 03 0A 01 01 A1 03 02 01 02"), ("WrongForm", 42)),
    ("proposed-physical-in-profile-2", ("64 34 30 32", "9F 1F 01 01 BF 20 0E A1 0C 30 0A 80 01 1E A7 05 1B 03 46 61 78"), ("UnexpectedTag", 47)),
    (
        "forward-notification-in-profile-2",
        ("62 2E 30 2C", "A4 00 B8 00 B9 00 BF 30 03 1B 01 4E BF 31 00"),
        ("LeftOut", 0, "ILL-APDU.Forward-Notification"),
    ),
    ("report-minimal-in-profile-2", ("73 1F 30 1D", ""), ("LeftOut", 0, "ILL-APDU.Status-Or-Error-Report")),
    ("damaged-whole-in-profile-2", ("70 23 30 21", "A5 02 81 00"), ("LeftOut", 33, "Damaged.damaged-details")),
    (
        "general-escape-in-profile-2",
        "74 1F 30 1D 80 01 02 A1 0A A1 03 1B 01 1B A2 03 1B 01 51 A2 0C A0 0A 80 08 32 30 32 34 30 32 32 39",
        ("BadText", 11),
    ),
]


def books():
    book = Book("module_worked", "The module profile: worked rows", "module")
    group = book.group("module: normal forms", "A normal form is accepted, and is its own normal form.", clause="X.690, 10 and 11")
    spellings(book, group, NORMAL_FORMS)
    group = book.group("module: other spellings", "Each spelling of an APDU has its one normal form.", clause="X.690, 10 and 11")
    spellings(book, group, SPELLINGS)
    group = book.group("module: refusals", "Octets that spell no APDU have one cause at one offset.", cause="each at a place of its own")
    refusals(book, group, REFUSALS)
    yield book
    book = Book("module_in_profile_2", "What profile 2 says of messages of the module profile")
    group = book.group("module messages that profile 2 reads", "Where both profiles have a part, profile 2 has its own tags.", clause="X.690, 8.14")
    spellings(book, group, SPELLINGS_IN_PROFILE_2)
    group = book.group("module messages that profile 2 refuses", "Profile 2 leaves the parts out, or has other tags.", cause="LeftOut")
    refusals(book, group, REFUSALS_IN_PROFILE_2)
    yield book


def spellings(book, group, rows):
    for name, written, normal in rows:
        octets = whole(written)
        apdu = message(bytes(octets), book.profile)
        assert Writer().value(book.root, apdu, None) == (octets if normal is OWN else whole(normal)), name
        group.spells(f"module-worked-{name}", words(name), octets, apdu)


def refusals(book, group, rows):
    for name, written, (cause, offset, *part) in rows:
        group.refused(f"module-worked-{name}", words(name), Marked(whole(written), offset), cause, *part)


def whole(written):
    """The octets of a row."""
    return joined(written) if isinstance(written, str) else joined(written[0], HEAD, written[1])


def words(name):
    return name.replace("-", " ")
