"""Identifier octets: classes, forms, tag numbers in one octet and in more."""
from model.tables import ROWS

from rules.book import Book
from rules.messages import HEAD, HEAD_VALUE, REQUEST_VALUE, SERVICE, TRANSACTION
from rules.messages import around, carried, expired, message, octets_of, other, part_name, request, sample, with_head
from rules.octets import MARK, element, indefinite, joined, text

CLASSES = {"universal": "00", "application": "40", "context": "80", "private": "C0"}


def books():
    book = Book("identifiers", "Identifier octets (X.690, 8.1.2)")
    numbers(book)
    classes(book)
    high_numbers(book)
    bad_numbers(book)
    zero(book)
    forms(book)
    yield book


def numbers(book):
    group = book.group("APDU numbers", "A number from 0 to 30 stands in bits 5 to 1 of the one identifier octet.", clause="X.690, 8.1.2.2")
    left_out = {2: "Forward-Notification", 19: "Status-Or-Error-Report"}
    for number in range(31):
        octet = f"{0x60 + number:02X}"
        name = f"identifier-application-{number}"
        if number in left_out:
            group.refused(name, f"APDU {number} is left out", joined(MARK, octet, "00"), "LeftOut", f"ILL-APDU.{left_out[number]}")
        elif number - 1 in carried():
            apdu = number - 1, sample(ROWS["IllApdu"][number - 1].node)
            group.spells(name, f"APDU {number}", octets_of(apdu), apdu)
        else:
            group.refused(name, f"no APDU has the number {number}", joined(MARK, octet, "1F 30 1D", HEAD), "UnexpectedTag")


def classes(book):
    group = book.group(
        "classes", "Bits 8 and 7 of the first identifier octet are the class. A tag of another class is another tag.", clause="X.690, 8.1.2.2 a"
    )
    for name, bits in CLASSES.items():
        if name != "application":
            octet = f"{int(bits, 16) | 0x34:02X}"
            group.refused(
                f"identifier-class-{name}-for-apdu", f"tag 20 of class {name} for an APDU", joined(MARK, octet, "1F 30 1D", HEAD), "UnexpectedTag"
            )
        if name != "universal":
            octet = f"{int(bits, 16) | 0x30:02X}"
            octets = element("74", MARK, element(octet, HEAD))
            group.refused(f"identifier-class-{name}-for-sequence", f"tag 16 of class {name} for the SEQUENCE of an APDU", octets, "UnexpectedTag")
            octet = f"{int(bits, 16) | 0x1B:02X}"
            octets = expired(group=element("A1", MARK, element(octet, "47")))
            group.refused(f"identifier-class-{name}-for-general-string", f"tag 27 of class {name} for a GeneralString", octets, "UnexpectedTag")
            octet = f"{int(bits, 16) | 0x04:02X}"
            octets = expired(group=element("A1", element("3B", MARK, element(octet, "47"))))
            group.refused(f"identifier-class-{name}-for-segment", f"tag 4 of class {name} for a segment of a string", octets, "UnexpectedTag")
        if name != "context":
            octets = element("74", element("30", MARK, element(f"{int(bits, 16):02X}" if int(bits, 16) else "02", "02"), TRANSACTION, SERVICE))
            group.refused(f"identifier-class-{name}-for-integer", f"a tag of class {name} for protocol-version-num [0]", octets, "UnexpectedTag")
            octets = element("74", element("30", "80 01 02", MARK, element(f"{int(bits, 16) | 0x21:02X}", TRANSACTION[2:]), SERVICE))
            group.refused(f"identifier-class-{name}-for-transaction-id", f"tag 1 of class {name} for transaction-id [1]", octets, "UnexpectedTag")


def high_numbers(book):
    group = book.group(
        "numbers from 31 on",
        "A number from 31 on stands in octets of seven bits after a first octet of class, form and five ones. Bit 8 is set in all but the last.",
        clause="X.690, 8.1.2.4",
    )
    for number in sorted({row.tag[1] for rows in ROWS.values() for row in rows if row.tag and row.tag[1] > 30 and row.presence != "LeftOut"}):
        node, i = next((node, i) for node, rows in ROWS.items() for i, row in enumerate(rows) if row.tag and row.tag[1] == number)
        entries = sample(node)
        entries[i] = other(ROWS[node][i])
        apdu = around(node, entries)
        group.spells(f"identifier-number-{number}", f"[{number}], {part_name(node, i)}", octets_of(apdu), apdu)
    group.refused("identifier-number-49", "[49] of Lost, which is left out", message("Lost", MARK, "BF 31 00"), "LeftOut", "Lost.lost-extensions")
    for octets, number in [
        ("DF 1F", 31),
        ("9F 81 00", 128),
        ("9F FF 7F", 16383),
        ("9F 81 80 00", 16384),
        ("9F 81 80 80 00", 2097152),
        ("9F FF FF FF 7F", 268435455),
    ]:
        parts = len(octets.split()) - 1
        whose = "private" if octets.startswith("DF") else "context"
        bad = message("Lost", MARK, octets, "00")
        group.refused(
            f"identifier-number-{number}-not-due", f"tag {number} of class {whose}, of {parts} number octets, is not that of a row", bad, "UnexpectedTag"
        )
    group = book.group("numbers of four octets", "A number has at most four octets after the first, here.", limit="octets of a tag number: 4")
    group.refused(
        "identifier-four-number-octets", "four number octets are an identifier", message("Lost", MARK, "9F FF FF FF 7F 00"), "UnexpectedTag"
    )
    group.refused("identifier-five-number-octets", "bit 8 is set in the fourth number octet", message("Lost", MARK, "9F FF FF FF FF 7F 00"), "BadTag")
    group.refused("identifier-five-number-octets-least", "the least number of five octets", message("Lost", MARK, "9F 81 80 80 80 00 00"), "BadTag")
    group.refused(
        "identifier-number-modulo-2-32",
        "a number that is 46 modulo 2 to the power 32",
        message("Lost", MARK, "BF 90 80 80 80 2E 03 1B 01 41"),
        "BadTag",
    )


def bad_numbers(book):
    group = book.group(
        "shortest tag numbers",
        "A number from 0 to 30 has the one octet, and the first seven bits of a number aren't all zero.",
        clause="X.690, 8.1.2.4.2 c",
    )
    for octet in ("00", "01", "14", "1E"):
        octets = element("74", element("30", MARK, "9F", octet, "01 02"))
        group.refused(f"identifier-high-form-of-{int(octet, 16)}", f"number {int(octet, 16)} in the form for numbers from 31 on", octets, "BadTag")
    group.refused(
        "identifier-high-form-of-apdu-20", "application 20 in the form for numbers from 31 on", joined(MARK, "7F 14 1F 30 1D", HEAD), "BadTag"
    )
    group.refused(
        "identifier-high-form-of-sequence", "universal 16 in the form for numbers from 31 on", element("74", MARK, "3F 10 1D", HEAD), "BadTag"
    )
    group.refused("identifier-leading-80", "46 with a leading octet of zero bits", message("Lost", MARK, "BF 80 2E 03 1B 01 41"), "BadTag")
    group.refused("identifier-leading-80-of-20", "number 20 after a leading octet of zero bits", joined(MARK, "7F 80 14 1F 30 1D", HEAD), "BadTag")
    group.refused(
        "identifier-leading-80-twice", "46 with two leading octets of zero bits", message("Lost", MARK, "BF 80 80 2E 03 1B 01 41"), "BadTag"
    )


def zero(book):
    group = book.group("the octet 00", "Universal 0 is the tag of the end mark, and no element of a message has it.", clause="X.690, 8.1.5")
    group.refused("identifier-zero-for-message", "a message begins with 00", joined(MARK, "00"), "BadTag")
    group.refused("identifier-zeros-for-message", "a message begins with 00 00", joined(MARK, "00 00"), "BadTag")
    group.refused("identifier-zero-in-apdu", "00 in a definite APDU", element("74", MARK, "00 1F"), "BadTag")
    group.refused("identifier-zero-in-sequence", "00 in a definite SEQUENCE", element("74", element("30", HEAD, MARK, "00")), "BadTag")
    group.refused("identifier-zero-in-wrapper", "00 in a definite EXPLICIT tag", expired(group=element("A1", MARK, "00 01 47")), "BadTag")
    group.refused(
        "identifier-zero-in-string", "00 in a definite constructed string", expired(group=element("A1", element("3B", MARK, "00 00"))), "BadTag"
    )
    group.refused("identifier-zero-in-list", "00 in a definite list", request(element("A9", MARK, "00 00")), "BadTag")
    group.refused(
        "identifier-zero-constructed", "20, universal 0 constructed, is an identifier that isn't due", joined(MARK, "20 00"), "UnexpectedTag"
    )
    group.refused(
        "identifier-zero-constructed-in-indefinite",
        "20 00 in an indefinite SEQUENCE is no end mark",
        indefinite("74", indefinite("30", HEAD, MARK, "20 00")),
        "UnexpectedTag",
    )
    group.refused(
        "identifier-end-mark-in-definite", "00 00 at the end of a definite SEQUENCE", element("74", element("30", HEAD, MARK, "00 00")), "BadTag"
    )


def forms(book):
    group = book.group(
        "primitive and constructed", "Bit 6 of the first identifier octet is set exactly if the element is constructed.", clause="X.690, 8.1.2.5"
    )
    group.refused("identifier-primitive-apdu", "an APDU is constructed", joined(MARK, "54 1F 30 1D", HEAD), "WrongForm")
    group.refused("identifier-primitive-sequence", "a SEQUENCE is constructed (8.9.1)", element("74", MARK, element("10", HEAD)), "WrongForm")
    octets = element("74", element("30", "80 01 02", MARK, element("81", TRANSACTION[2:]), SERVICE))
    group.refused("identifier-primitive-implicit-sequence", "a SEQUENCE with an IMPLICIT tag is constructed", octets, "WrongForm")
    group.refused(
        "identifier-primitive-wrapper", "an EXPLICIT tag is constructed (8.14)", expired(group=joined(MARK, element("81", "1B 01 47"))), "WrongForm"
    )
    group.refused("identifier-primitive-list", "a SEQUENCE OF is constructed (8.10.1)", request(joined(MARK, "89 03 0A 01 01")), "WrongForm")
    group.refused("identifier-primitive-empty-sequence", "an empty SEQUENCE is constructed, too", message("Expired", MARK, "83 00"), "WrongForm")
    answer = message("ILL-Answer", "9F 1F 01 07", MARK, "9F 20 0D A7 0B 30 09 A0 07", element("1B", text("12.50")))
    group.refused("identifier-primitive-choice", "an EXPLICIT tag of more than 30 is constructed", answer, "WrongForm")
    group.refused("identifier-constructed-integer", "an INTEGER is primitive (8.3.1)", expired(version=joined(MARK, "A0 01 02")), "WrongForm")
    group.refused("identifier-constructed-boolean", "a BOOLEAN is primitive (8.2.1)", message("Cancel-Reply", MARK, "BF 23 01 FF"), "WrongForm")
    group.refused("identifier-constructed-enumerated", "an ENUMERATED is primitive (8.4)", request(joined("A9 03", MARK, "2A 01 01")), "WrongForm")
    group.valid(
        "identifier-constructed-string",
        "a string is primitive or constructed (8.23, 8.7.1)",
        expired(group=element("A1", element("3B", "04 01 47"))),
        "Expired",
        HEAD_VALUE,
    )
    group.valid(
        "identifier-constructed-date", "a date is a string, too", expired(date=element("A0", element("04", text("20240229")))), "Expired", HEAD_VALUE
    )
    octets = request(messages=element("AB", MARK, "A0 01 00 81 01 00 82 01 01 83 01 01"))
    group.refused("identifier-constructed-boolean-implicit", "a BOOLEAN with an IMPLICIT tag is primitive", octets, "WrongForm")
    group.valid("identifier-forms-of-a-request", "each form of an ILL-REQUEST as it ought to be", request(), "ILL-Request", with_head(REQUEST_VALUE))
