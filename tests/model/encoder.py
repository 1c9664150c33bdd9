"""An encoder by the rules of X.690: the normal form of a value, and any spelling of it.

Goes by the tables of crates/ill_schema/src, and by nothing else of the crates.
"""
from .tables import ALL_LISTS, ALL_ROWS, CHOICES, LEAVES, Bits

CLASSES = {"universal": 0x00, "application": 0x40, "context": 0x80, "private": 0xC0}
STRINGS = {"general": 27, "visible": 26}


def is_default(value, row):
    """Whether the value is the row's default."""
    return row.presence == "Default" and value == int(row.default)


class Writer:
    """The normal form."""

    def element(self, tag, constructed, contents):
        return self.identifier(tag, constructed) + self.length(len(contents)) + contents

    def identifier(self, tag, constructed):
        first = CLASSES[tag[0]] | (0x20 if constructed else 0)
        if tag[1] < 31:
            return bytes([first | tag[1]])
        digits, number = [tag[1] & 0x7F], tag[1] >> 7
        while number:
            digits.insert(0, 0x80 | number & 0x7F)
            number >>= 7
        return bytes([first | 31] + digits)

    def length(self, size):
        octets = size.to_bytes((size.bit_length() + 7) // 8, "big")
        return bytes([size]) if size < 128 else bytes([0x80 | len(octets)]) + octets

    def text(self, tag, octets):
        return self.element(tag, False, octets)

    def bits(self, tag, bits):
        return self.element(tag, False, self.bit_content(bits))

    def bit_content(self, bits):
        return bytes([unused(bits)]) + bits.octets

    def flag(self, value):
        return b"\xff" if value else b"\0"

    def writes_default(self):
        return False

    def writes_bare(self):
        return False

    def row(self, row, value):
        if is_default(value, row) and not self.writes_default():
            return b""
        if row.mode == "ExplicitOrBare" and self.writes_bare():
            return self.element(row.tag, True, self.contents(row.node, value))
        if row.tag and row.mode != "Implicit":
            return self.element(row.tag, True, self.value(row.node, value, None))
        return self.value(row.node, value, row.tag)

    def value(self, node, value, tag):
        if node in CHOICES:
            return self.row(ALL_ROWS[node][value[0]], value[1])
        if node == "IllString":
            return self.text(("universal", STRINGS[value[0]]), value[1].encode("latin-1"))
        if node == "Any":
            return self.tree(value)
        if node in ALL_ROWS:
            return self.element(tag or ("universal", 16), True, self.contents(node, value))
        return self.leaf(node, value, tag or ("universal", LEAVES[node]))

    def leaf(self, node, value, tag):
        if isinstance(value, str):
            return self.text(tag, value.encode("latin-1"))
        if node == "OctetString":
            return self.text(tag, value)
        if node == "BitString":
            return self.bits(tag, value)
        if node == "Null":
            return self.element(tag, False, b"")
        if node == "ObjectIdentifier":
            return self.element(tag, False, value)
        return self.element(tag, False, self.flag(value) if isinstance(value, bool) else whole(value))

    def tree(self, tree):
        """A foreign tree, of which only the lengths are not part of the value."""
        if isinstance(tree.contents, bytes):
            return self.element(tree.tag, False, tree.contents)
        return self.element(tree.tag, True, b"".join(map(self.tree, tree.contents)))

    def contents(self, node, value):
        rows = ALL_ROWS[node] * len(value) if node in ALL_LISTS else ALL_ROWS[node]
        return b"".join(self.row(row, entry) for row, entry in zip(rows, value) if entry is not None)


def unused(bits):
    """How many bits of the last octet are none of the value."""
    return -bits.count % 8


def whole(number):
    size = 1
    while not -(1 << 8 * size - 1) <= number < 1 << 8 * size - 1:
        size += 1
    return number.to_bytes(size, "big", signed=True)


class Speller(Writer):
    """Any spelling: lengths in any form, strings in segments, any octet but 00 for TRUE, unused bits, defaults written or not, bare wrappers."""

    def __init__(self, chance):
        self.chance = chance

    def element(self, tag, constructed, contents):
        if constructed and self.chance.random() < 0.35:
            return self.identifier(tag, True) + b"\x80" + contents + b"\0\0"
        return super().element(tag, constructed, contents)

    def length(self, size):
        if self.chance.random() < 0.6:
            return super().length(size)
        octets = self.chance.randint(max(1, (size.bit_length() + 7) // 8), 12)
        return bytes([0x80 | octets]) + size.to_bytes(octets, "big")

    def text(self, tag, octets):
        if self.chance.random() < 0.3:
            return self.element(tag, True, self.segments(octets, 3))
        return self.element(tag, False, octets)

    def segments(self, octets, depth):
        result = b""
        while octets or self.chance.random() < 0.2:
            size = self.chance.randint(0, max(1, len(octets)))
            deeper = depth > 0 and self.chance.random() < 0.3
            part = self.segments(octets[:size], depth - 1) if deeper else octets[:size]
            result += self.element(("universal", 4), deeper, part)
            octets = octets[size:]
        return result

    def bits(self, tag, bits):
        if self.chance.random() < 0.4:
            return self.element(tag, True, self.bit_segments(bits, 3))
        return super().bits(tag, bits)

    def bit_content(self, bits):
        """Octets whose unused bits have any value."""
        octets = bytearray(bits.octets)
        if unused(bits):
            octets[-1] |= self.chance.randrange(1 << unused(bits))
        return bytes([unused(bits)]) + octets

    def bit_segments(self, bits, depth):
        """Segments that are BIT STRINGs (X.690, 8.6.4). None follows one that has unused bits."""
        result = b""
        while bits.count or self.chance.random() < 0.2:
            size = self.chance.randint(0, max(1, len(bits.octets)))
            part = Bits(min(bits.count, 8 * size), bits.octets[:size])
            deeper = depth > 0 and self.chance.random() < 0.3
            result += self.element(("universal", 3), deeper, self.bit_segments(part, depth - 1) if deeper else self.bit_content(part))
            if unused(part):
                break
            bits = Bits(bits.count - part.count, bits.octets[size:])
        return result

    def flag(self, value):
        return bytes([self.chance.choice([1, 7, 0x80, 0xFF])]) if value else b"\0"

    def writes_default(self):
        return self.chance.random() < 0.5

    def writes_bare(self):
        return self.chance.random() < 0.4


class UsualSpeller(Speller):
    """Any spelling in usual elements alone: strings in one piece, and no bare wrapper. `is_usual` tells whether the value had no other part."""

    OTHERS = {"Any", "BitString", "Null", "ObjectDescriptor", "ObjectIdentifier", "OctetString"}

    def __init__(self, chance):
        super().__init__(chance)
        self.is_usual = True

    def text(self, tag, octets):
        return self.element(tag, False, octets)

    def writes_bare(self):
        return False

    def value(self, node, value, tag):
        self.is_usual = self.is_usual and node not in self.OTHERS
        return super().value(node, value, tag)


def spelled_usually(chance, root, random_value):
    """A random value of the root, and a spelling of it in usual elements alone."""
    while True:
        value, speller = random_value(chance, root), UsualSpeller(chance)
        octets = speller.value(root, value, None)
        if speller.is_usual:
            return value, octets
