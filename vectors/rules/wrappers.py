"""The EXPLICIT tags of APDUs and of results, which some implementations write without the SEQUENCE inside."""
from model.tables import NAMES, ROWS

from rules.book import Book
from rules.messages import APPLICATION, HEAD, HEAD_VALUE, RESULT, Builder, along, message, part_name, sample, shortest_way, slug, with_head
from rules.octets import MARK, element, indefinite, joined, text

BARE = "The tag may be round the parts of the SEQUENCE, without its 30. The normal form has the 30."


def books():
    book = Book("wrappers", "The tags of APDUs and of results: round a SEQUENCE, or bare")
    apdus(book)
    results(book)
    both(book)
    mixed(book)
    ends(book)
    yield book


def apdus(book):
    group = book.group("bare APDUs", BARE, row="ILL-APDU")
    for i, row in enumerate(ROWS["IllApdu"]):
        if row.presence == "LeftOut":
            continue
        apdu, name = (i, sample(row.node)), NAMES["IllApdu"][1][i]
        parts = Builder().contents(row.node, apdu[1])
        tag, slugged, what = APPLICATION[name], slug(name), name.upper()
        group.spells(f"wrapper-{slugged}", f"{what} round a SEQUENCE", element(tag, element("30", parts)), apdu)
        group.spells(f"bare-{slugged}", f"{what} bare", element(tag, parts), apdu)
        group.spells(f"bare-{slugged}-indefinite", f"{what} bare, in the indefinite form", indefinite(tag, parts), apdu)
        bad = next(i for i, row in enumerate(ROWS[row.node]) if row.presence == "LeftOut" and row.tag[1] == 49)
        octets = element(tag, parts, MARK, "BF 31 00")
        group.refused(f"bare-{slugged}-left-out", f"{what} bare, with a part that is left out", octets, "LeftOut", part_name(row.node, bad))


def results(book):
    group = book.group("bare results", BARE, row="Results")
    for i, row in enumerate(ROWS["Results"]):
        value, name = sample(row.node), NAMES["Results"][1][i]
        apdu = along(shortest_way("Results"), (i, value))
        parts, slugged = Builder().contents(row.node, value), slug(name)

        def answer(result):
            return message("ILL-Answer", "9F 1F 01 01", element("BF 20", result))

        tag = RESULT[name]
        group.spells(f"wrapper-{slugged}", f"{name} round a SEQUENCE", answer(element(tag, element("30", parts))), apdu)
        group.spells(f"bare-{slugged}", f"{name} bare", answer(element(tag, parts)), apdu)
        group.spells(f"bare-{slugged}-indefinite", f"{name} bare, in the indefinite form", answer(indefinite(tag, parts)), apdu)
        group.refused(
            f"bare-{slugged}-then-sequence",
            f"a SEQUENCE after the parts of a bare {name}",
            answer(element(tag, parts or "80 01 01", MARK, "30 00")),
            "UnexpectedTag",
        )
        missing = next((j for j, row in enumerate(ROWS[row.node]) if row.presence == "Must"), None)
        if missing is None:
            group.spells(f"bare-{slugged}-empty", f"{name} bare, without parts", answer(element(tag)), apdu)
        else:
            part = part_name(row.node, missing)
            group.refused(f"bare-{slugged}-empty", f"{name} bare, without parts", answer(element(tag, MARK)), "Missing", part)
    octets = message("ILL-Answer", "9F 1F 01 05", element("BF 20", element("A5", "80 01 01", MARK, "A4 00")))
    group.refused(
        "bare-will-supply-left-out",
        "will-supply-results bare, with a part that is left out",
        octets,
        "LeftOut",
        "Will-Supply.electronic-delivery-service",
    )


def both(book):
    group = book.group("bare APDU and bare result", BARE, row="ILL-APDU, Results")
    note = element("A0", element("1B", text("12.50")))
    value = with_head({"transaction-results": 7, "results-explanation": {"estimate-results": {"cost-estimate": {"general": "12.50"}}}})
    for name, inner in [("sequence", element("A7", element("30", note))), ("bare", element("A7", note)), ("indefinite-bare", indefinite("A7", note))]:
        parts = joined(HEAD, "9F 1F 01 07", element("BF 20", inner))
        for outer, octets in [
            ("sequence", element("64", element("30", parts))),
            ("bare", element("64", parts)),
            ("indefinite-sequence", element("64", indefinite("30", parts))),
            ("indefinite-apdu", indefinite("64", element("30", parts))),
            ("indefinite-bare", indefinite("64", parts)),
        ]:
            comment = f"an ILL-ANSWER: {outer.replace('-', ' ')}, its result: {name.replace('-', ' ')}"
            group.valid(f"bare-answer-{outer}-result-{name}", comment, octets, "ILL-Answer", value)
    octets = element("64", element("30", HEAD, "9F 1F 01 07", MARK, element("A7", note)))
    group.refused("bare-results-explanation", "results-explanation [32] itself isn't left away", octets, "UnexpectedTag")
    octets = element("64", element("30", HEAD, "9F 1F 01 07", element("BF 20", MARK, element("30", note))))
    group.refused("bare-choice", "the tag of a result isn't left away", octets, "UnexpectedTag")
    octets = element("64", element("30", HEAD, "9F 1F 01 07", element("BF 20", MARK, note)))
    group.refused("bare-choice-and-sequence", "neither the tag of a result nor the SEQUENCE is there", octets, "UnexpectedTag")


def mixed(book):
    group = book.group("parts and a SEQUENCE", "In one tag there are parts or one SEQUENCE, and nothing after that.", row="ILL-APDU")
    inner = element("30", HEAD)
    for name, what, octets in [
        ("sequence-after-parts", "a SEQUENCE after bare parts", element("74", HEAD, MARK, "30 00")),
        ("sequence-after-first-part", "a SEQUENCE after the first bare part", element("74", "80 01 02", MARK, "30 00")),
        ("sequence-after-sequence", "an empty SEQUENCE after the SEQUENCE", element("74", inner, MARK, "30 00")),
        ("sequence-twice", "the SEQUENCE twice", element("74", inner, MARK, inner)),
        ("part-after-sequence", "a part after the SEQUENCE", element("74", inner, MARK, "A3 00")),
        ("sequence-in-sequence", "a SEQUENCE in the SEQUENCE", element("74", element("30", MARK, inner))),
        ("wrapper-twice", "the tag of the APDU twice", element("74", MARK, element("74", inner))),
        ("second-part-first", "a bare APDU begins with its second part", element("74", MARK, HEAD[3:])),
        ("set", "a SET in place of the SEQUENCE", element("74", MARK, element("31", HEAD))),
        ("no-apdu-tag", "the SEQUENCE without the tag of the APDU", joined(MARK, inner)),
    ]:
        group.refused(f"bare-{name}", what, octets, "UnexpectedTag")
    group.refused("bare-primitive-sequence", "the SEQUENCE is primitive", element("74", MARK, "10 00"), "WrongForm")
    group.refused("bare-constructed-first-part", "the first bare part is constructed", element("74", MARK, "A0 00"), "WrongForm")
    octets = element("74", element("30", "80 01 02", MARK), HEAD[3:])
    group.refused(
        "bare-part-in-and-after-sequence", "the first part in a SEQUENCE, and the others after it", octets, "Missing", "Expired.transaction-id"
    )


def ends(book):
    group = book.group("bare APDUs that end", "A bare APDU that ends early misses the part of its SEQUENCE.", row="ILL-APDU")
    group.refused("bare-empty", "no parts at all", element("74", MARK), "Missing", "Expired.protocol-version-num")
    group.refused(
        "bare-empty-indefinite", "no parts at all, in the indefinite form", joined("74 80", MARK, "00 00"), "Missing", "Expired.protocol-version-num"
    )
    for i, row in enumerate(ROWS["Expired"]):
        if row.presence == "Must" and i:
            before = [Builder().row(other, entry) for other, entry in zip(ROWS["Expired"][:i], sample("Expired"))]
            octets = element("74", *before, MARK)
            group.refused(
                f"bare-ends-before-{NAMES['Expired'][1][i]}", f"it ends before {NAMES['Expired'][1][i]}", octets, "Missing", part_name("Expired", i)
            )
    octets = element("74", HEAD, "A3 07 A0 05 A1 03 1B 01 4C")
    value = {**HEAD_VALUE, "requester-id": {"person-or-institution-symbol": {"institution-symbol": {"general": "L"}}}}
    group.valid("bare-with-optional-part", "a bare APDU with a part that may be absent", octets, "Expired", value)
