"""Octets that are put together from elements, with at most one marked place: where a fault stands."""


class Marked(bytes):
    """Octets, and the offset of the mark among them, or None."""

    def __new__(cls, octets=b"", mark=None):
        self = super().__new__(cls, octets)
        self.mark = mark
        return self

    def __add__(self, other):
        later = getattr(other, "mark", None)
        mark = self.mark if later is None else len(self) + later
        return Marked(bytes(self) + bytes(other), mark)

    def __radd__(self, other):
        return Marked(other) + self


MARK = Marked(b"", 0)


def joined(*pieces):
    """The pieces one after another; a text is hexadecimal."""
    whole = Marked()
    for piece in pieces:
        whole += bytes.fromhex(piece) if isinstance(piece, str) else piece
    return whole


def shortest(size):
    """The length octets of DER."""
    return bytes([size]) if size < 0x80 else long(size, (size.bit_length() + 7) // 8)


def long(size, count):
    """The long form, with as many octets after the first."""
    return bytes([0x80 | count]) + size.to_bytes(count, "big")


def of(count):
    """Lengths in the long form, with as many octets after the first."""
    return lambda size: long(size, count)


def fixed(octets):
    """These length octets, whatever the size."""
    return lambda size: bytes.fromhex(octets)


def element(identifier, *contents, form=shortest):
    """A definite element."""
    inside = joined(*contents)
    return joined(identifier, form(len(inside)), inside)


def indefinite(identifier, *contents):
    """An element in the indefinite form."""
    return joined(identifier, "80", *contents, "00 00")


def text(characters):
    """The octets of a text."""
    return characters.encode("latin-1")


SHORT, PERIOD, TIMES = 256, 64, 8


def runs(octets):
    """The octets as pairs of hexadecimal and count."""
    found, start, at = [], 0, 0
    octets = bytes(octets)
    while at < len(octets):
        unit, count = repeated(octets, at)
        if count * len(unit) < SHORT:
            at += 1
            continue
        if start < at:
            found.append([octets[start:at].hex(), 1])
        found.append([unit.hex(), count])
        at += count * len(unit)
        start = at
    return found + ([[octets[start:].hex(), 1]] if start < at else [])


def repeated(octets, at):
    """The shortest octets from here on that stand there more than once or twice, and how often."""
    for size in range(1, PERIOD + 1):
        unit = octets[at : at + size]
        if octets[at : at + TIMES * size] == unit * TIMES:
            count = TIMES
            while octets[at + count * size : at + (count + 1000) * size] == unit * 1000:
                count += 1000
            while octets[at + count * size : at + (count + 1) * size] == unit:
                count += 1
            return unit, count
    return octets[at : at + 1], 1


def expanded(pairs):
    """The octets of pairs of hexadecimal and count."""
    return b"".join(bytes.fromhex(unit) * count for unit, count in pairs)
