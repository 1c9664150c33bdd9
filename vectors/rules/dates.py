"""ISO-Date and ISO-Time."""
from model.encoder import Writer
from model.tables import ROWS

from rules.book import Book
from rules.messages import Octets, around, expired, octets_of, part_name, sample, slug, with_date
from rules.octets import MARK, element, indefinite, joined, text

DAYS = [31, 29, 31, 30, 31, 30, 31, 31, 30, 31, 30, 31]


def books():
    book = Book("dates", "ISO-Date and ISO-Time")
    group = book.group(
        "ISO-Date", "YYYYMMDD, eight digits of a day of the years 0000 to 9999 in the Gregorian calendar.", limit="octets of an ISO-Date"
    )
    dates(group)
    group = book.group(
        "ISO-Time", "HHMMSS, six digits: hours to 23, minutes to 59, seconds to 60; and 240000, which isn't 000000.", limit="octets of an ISO-Time"
    )
    times(group)
    group = book.group(
        "each date and time", "Each row of type ISO-Date or ISO-Time has these contents.", limit="octets of an ISO-Date and an ISO-Time"
    )
    for node, rows in ROWS.items():
        for i, row in enumerate(rows):
            if row.node in ("IsoDate", "IsoTime"):
                entries, part, cause = sample(node), part_name(node, i), {"IsoDate": "BadDate", "IsoTime": "BadTime"}[row.node]
                bad = {"IsoDate": "20230229", "IsoTime": "240001"}[row.node]
                octets = octets_of(
                    around(node, entries[:i] + [Octets(MARK, element(Writer().identifier(row.tag, False), text(bad)))] + entries[i + 1 :])
                )
                group.refused(f"iso-date-{slug(part)}-{bad}", f"{part} is {bad}", octets, cause)
    yield book


def dates(group):
    for month, days in enumerate(DAYS, 1):
        for day in (1, days):
            date = f"2024{month:02}{day:02}"
            group.valid(
                f"iso-date-{date}", f"day {day} of month {month} of a leap year", expired(date=element("80", text(date))), "Expired", with_date(date)
            )
        bad_date(group, f"2024{month:02}{days + 1:02}", f"day {days + 1} of month {month}")
    for date, what in [
        ("00000101", "the first day"),
        ("00000229", "29 February of the year 0000, a leap year"),
        ("00010228", "28 February of the year 0001"),
        ("00040229", "29 February of the year 0004"),
        ("04000229", "29 February of the year 0400"),
        ("15821010", "a day that the calendar of 1582 left out"),
        ("16000229", "29 February of the year 1600"),
        ("19000228", "28 February of the year 1900"),
        ("20000229", "29 February of the year 2000"),
        ("99991231", "the last day"),
    ]:
        group.valid(f"iso-date-{date}", what, expired(date=element("80", text(date))), "Expired", with_date(date))
    for date, what in [
        ("00010229", "29 February of the year 0001"),
        ("01000229", "29 February of the year 0100"),
        ("19000229", "29 February of the year 1900"),
        ("20230229", "29 February of the year 2023"),
        ("20241301", "month 13"),
        ("20240001", "month 00"),
        ("20240100", "day 00"),
        ("20240199", "day 99"),
        ("00000000", "zeros"),
    ]:
        bad_date(group, date, what)
    for name, date, what in [
        ("empty", "", "no octets"),
        ("of-seven-digits", "2024022", "seven digits"),
        ("of-nine-digits", "202402290", "nine digits"),
        ("of-six-digits", "240229", "a year of two digits"),
        ("with-hyphens", "2024-02-29", "hyphens"),
        ("with-spaces", "2024 229", "a space for a zero"),
        ("with-sign", "+2024229", "a sign"),
        ("with-letter", "2024O229", "a letter for a zero"),
        ("with-time", "20240229120000", "a time after the date"),
        ("with-zero-octet", "20240229\0", "an octet 00 after the date"),
        ("of-week", "2024W095", "a week and a day"),
        ("of-ordinal", "2024060", "the day of the year"),
        ("with-high-octets", "2024022\xb9", "an octet above 7F"),
    ]:
        bad_date(group, date, what, name)
    for name, octets in [
        ("segments", element("A0", "04 04", text("2024"), "04 04", text("0230"))),
        ("indefinite-segments", indefinite("A0", "04 04", text("2024"), "04 04", text("0230"))),
        ("segments-of-seven-digits", element("A0", "04 04", text("2024"), "04 03", text("022"))),
        ("segments-of-nine-digits", element("A0", "04 08", text("20240229"), "04 01", text("0"))),
        ("no-segments", element("A0")),
    ]:
        group.refused(f"iso-date-bad-in-{name}", f"no day, in {name.replace('-', ' ')}", expired(date=joined(MARK, octets)), "BadDate")


def bad_date(group, date, what, name=None):
    group.refused(f"iso-date-{name or date}", what, expired(date=joined(MARK, element("80", text(date)))), "BadDate")


def timed(*pieces):
    """An EXPIRED with this for the time after its date."""
    return expired(date=joined("80 08", text("20240229"), *pieces))


def times(group):
    for time in ("000000", "000001", "000059", "000060", "005900", "120000", "235959", "235960", "230000", "240000", "195959", "200000"):
        group.valid(f"iso-time-{time}", f"the time {time}", timed(element("81", text(time))), "Expired", with_date("20240229", time))
    for name, time, what in [
        ("240001", "240001", "a second after the end of the day"),
        ("240060", "240060", "second 60 of hour 24"),
        ("240100", "240100", "a minute after the end of the day"),
        ("250000", "250000", "hour 25"),
        ("300000", "300000", "hour 30"),
        ("990000", "990000", "hour 99"),
        ("006000", "006000", "minute 60"),
        ("236000", "236000", "minute 60 of hour 23"),
        ("009900", "009900", "minute 99"),
        ("000061", "000061", "second 61"),
        ("235961", "235961", "second 61 of the last minute"),
        ("000099", "000099", "second 99"),
        ("empty", "", "no octets"),
        ("of-four-digits", "1200", "hours and minutes"),
        ("of-two-digits", "12", "hours"),
        ("of-five-digits", "12000", "five digits"),
        ("of-seven-digits", "1200000", "seven digits"),
        ("with-fraction", "120000.5", "a fraction of a second"),
        ("with-colons", "12:00:00", "colons"),
        ("with-zone", "120000Z", "a zone"),
        ("with-space", "12000 ", "a space for a zero"),
        ("with-letter", "12000O", "a letter for a zero"),
        ("with-zero-octet", "120000\0", "an octet 00 after the time"),
    ]:
        group.refused(f"iso-time-{name}", what, timed(MARK, element("81", text(time))), "BadTime")
    for name, octets in [
        ("segments", element("A1", "04 03", text("240"), "04 03", text("001"))),
        ("indefinite-segments", indefinite("A1", "04 03", text("240"), "04 03", text("001"))),
        ("no-segments", element("A1")),
    ]:
        group.refused(f"iso-time-bad-in-{name}", f"no time, in {name.replace('-', ' ')}", timed(MARK, octets), "BadTime")
    octets = timed(element("A1", "04 01", text("2"), indefinite("24", "04 05", text("40000"))))
    group.valid("iso-time-in-segments", "240000 in segments", octets, "Expired", with_date("20240229", "240000"))
