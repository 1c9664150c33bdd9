"""BOOLEAN contents."""
from model.tables import ROWS

from rules.book import Book
from rules.messages import Octets, around, message, octets_of, other, part_name, sample, slug, with_head
from rules.octets import MARK, element
from model.encoder import Writer


def books():
    book = Book("booleans", "BOOLEAN contents (X.690, 8.2 and 11.1)")
    group = book.group(
        "value of an octet", "The octet 00 is FALSE, and each other is TRUE. The normal form of TRUE is FF.", clause="X.690, 8.2.2 and 11.1"
    )
    for octet in range(256):
        if octet < 4 or octet > 253 or octet.bit_count() == 1 or octet in (0x30, 0x54, 0x7F, 0xAA):
            octets = message("Cancel-Reply", "9F 23 01", bytes([octet]))
            group.valid(f"boolean-{octet:02x}", f"the content {octet:02X}", octets, "Cancel-Reply", with_head(answer=octet != 0))
    group = book.group("one octet", "The content of a BOOLEAN is one octet.", clause="X.690, 8.2.1")
    for content in ("", "00 00", "FF FF", "00 FF", "FF 00 00", "00" * 128):
        octets = message("Cancel-Reply", MARK, element("9F 23", content))
        size = len(bytes.fromhex(content))
        group.refused(
            f"boolean-of-{size}-octets" + ("-" + content[:2].lower() + content[-2:].lower() if size == 2 else ""),
            f"a content of {size} octets",
            octets,
            "BadBoolean",
        )
    group = book.group("each BOOLEAN", "Each row of type BOOLEAN has these contents.", clause="X.690, 8.2")
    for node, rows in ROWS.items():
        for i, row in enumerate(rows):
            if row.node == "Boolean":
                name, part = slug(part_name(node, i)), part_name(node, i)
                entries = sample(node)
                for value, octet in [(False, "00"), (True, "FF"), (True, "01")]:
                    apdu = around(node, entries[:i] + [value] + entries[i + 1 :])
                    octets = octets_of(around(node, entries[:i] + [Octets(tag_of(row), "01", octet)] + entries[i + 1 :]))
                    group.spells(f"boolean-{name}-{octet.lower()}", f"{part} is {octet}", octets, apdu)
                bad = around(node, entries[:i] + [Octets(MARK, tag_of(row), "00")] + entries[i + 1 :])
                group.refused(f"boolean-{name}-empty", f"{part} has no content", octets_of(bad), "BadBoolean")
    yield book


def tag_of(row):
    return Writer().identifier(row.tag, False)
