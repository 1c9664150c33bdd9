"""Streams: messages one after another, up to the end of the input."""
from model.encoder import Writer
from model.tables import ROWS

from rules.book import TOO_MANY, Book
from rules.end_marks import all_indefinite
from rules.messages import HEAD, carried, expired, message, sample
from rules.octets import MARK, element, indefinite, joined

EXPIRED = expired()
ONE = EXPIRED, EXPIRED, 1
INDEFINITE = all_indefinite(), EXPIRED, 1
BARE = element("74", HEAD), EXPIRED, 1
LOST = message("Lost", "BF 2E 03 1B 01 41")


def books():
    book = Book("streams", "Streams: messages one after another")
    group = book.group("streams", "A stream is any number of messages, one after another, and nothing else.", limit="messages of a stream: 1,000,000")
    group.stream("stream-empty", "no octets: no messages", [])
    group.stream("stream-of-one", "an EXPIRED", [ONE])
    group.stream("stream-of-two", "an EXPIRED twice", [ONE, ONE])
    group.stream("stream-indefinite-then-definite", "an EXPIRED in indefinite form, and one in definite form", [INDEFINITE, ONE])
    group.stream("stream-definite-then-indefinite", "an EXPIRED in definite form, and one in indefinite form", [ONE, INDEFINITE])
    group.stream("stream-indefinite-twice", "an EXPIRED in indefinite form twice", [INDEFINITE, INDEFINITE])
    group.stream("stream-of-spellings", "three spellings of an EXPIRED", [BARE, INDEFINITE, ONE])
    group.stream("stream-of-two-apdus", "an EXPIRED and a LOST", [ONE, (LOST, LOST, 1)])
    group.stream("stream-of-each-apdu", "each APDU in normal form", [(octets, octets, 1) for octets in each_apdu()])
    group.stream(
        "stream-of-each-apdu-indefinite",
        "each APDU in an indefinite tag",
        [(indefinite(octets[:1], octets[2:]), octets, 1) for octets in each_apdu()],
    )
    group.stream("stream-of-1000", "an EXPIRED 1000 times", [(EXPIRED, EXPIRED, 1000)])
    group = book.group(
        "streams that stop",
        "A stream ends at the first message that is refused. The offset counts from the first octet of that message.",
        cause="the cause of the first message that is refused",
    )
    for name, comment, messages, rest, cause, *part in [
        ("bad-first", "a wrong tag at once", [], joined(MARK, "75"), "UnexpectedTag"),
        ("with-bad-second", "an EXPIRED, and application 21", [ONE], joined(MARK, "75"), "UnexpectedTag"),
        (
            "with-bad-third",
            "two EXPIREDs, and a part that is left out",
            [ONE, INDEFINITE],
            joined(MARK, "62"),
            "LeftOut",
            "ILL-APDU.Forward-Notification",
        ),
        ("with-cut-second", "an EXPIRED, and the first octet of one", [ONE], joined("74", MARK), "Truncated"),
        ("with-second-less-one", "an EXPIRED, and one without its last octet", [ONE], joined(EXPIRED[:-1], MARK), "Truncated"),
        ("with-end-mark-between", "an end mark between two EXPIREDs", [ONE], joined(MARK, "00 00", EXPIRED), "BadTag"),
        ("with-end-mark-too-many", "an EXPIRED in indefinite form with an end mark too many", [INDEFINITE], joined(MARK, "00 00"), "BadTag"),
        ("with-zero-at-end", "an EXPIRED, and an octet 00", [ONE], joined(MARK, "00"), "BadTag"),
        ("with-line-end", "an EXPIRED, and LF", [ONE], joined(MARK, "0A"), "UnexpectedTag"),
        (
            "with-missing-in-second",
            "an EXPIRED, and one without parts",
            [ONE],
            joined("74 02 30 00", MARK),
            "Missing",
            "Expired.protocol-version-num",
        ),
        ("bad-second-then-good", "an EXPIRED, application 21, and an EXPIRED", [ONE], joined(MARK, "75", EXPIRED), "UnexpectedTag"),
        ("with-limit-in-second", "an EXPIRED, and the header of a message that is too long", [ONE], joined(MARK, "74 83 10 00 00"), "TooLong"),
        ("bad-after-1000", "1000 EXPIREDs, and a wrong length", [(EXPIRED, EXPIRED, 1000)], joined(MARK, "74 FF"), "BadLength"),
    ]:
        group.stream(f"stream-{name}", comment, messages, rest, cause, *part)
    group = book.group("messages of a stream", "A stream has at most 1,000,000 messages.", limit="messages of a stream: 1,000,000")
    million = [(EXPIRED, EXPIRED, 1_000_000)]
    group.stream("stream-of-a-million", "1,000,000 EXPIREDs", million)
    group.stream("stream-of-a-million-and-an-octet", "1,000,000 EXPIREDs, and the first octet of one", million, joined("74"), TOO_MANY)
    group.stream("stream-of-a-million-and-one", "1,000,001 EXPIREDs", million, EXPIRED, TOO_MANY)
    group.stream("stream-of-a-million-and-zero", "1,000,000 EXPIREDs, and an octet 00", million, joined("00"), TOO_MANY)
    group.stream("stream-of-999999-and-an-octet", "999,999 EXPIREDs, and an octet 00", [(EXPIRED, EXPIRED, 999_999)], joined(MARK, "00"), "BadTag")
    yield book


def each_apdu():
    for i in carried():
        yield Writer().value("IllApdu", (i, sample(ROWS["IllApdu"][i].node)), None)
