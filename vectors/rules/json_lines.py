"""Lines of JSON: the octets that each is built into, or the cause and the place of its refusal."""
from model.builder import Number, Object
from model.tables import ALL_LISTS, ALL_ROWS, CHOICES, NAMES, NUMBER_NAMES, ROOTS, default_of, reached

from rules import json_causes
from rules.book import BOTH
from rules.lines import EXPIRED, EXPIRED_OCTETS, LINE_LIMIT, MODULE, NESTING, LineBook, Runs, body_of, damaged, ends, levels, line_at, line_of, nested
from rules.lines import NORMAL_LIMIT, filled, normal, of_damaged, of_extension, of_returned, pointer_at, returned, said, text, with_amount, with_date
from rules.lines import with_extension, with_group, with_identifier, with_version
from rules.messages import HEAD_VALUE, REQUEST_VALUE, along, around, expired, full, message, other, part_name, sample, shortest_way, slug, with_head
from rules.octets import element


def books():
    book = LineBook("json", "Lines of JSON: the messages that are built from them, and why others are refused")
    apdus(book)
    turned(book)
    rows(book)
    members_of_lines(book)
    defaults(book)
    numbers(book)
    strings(book)
    lists(book)
    sizes(book)
    module_leaves(book)
    json_causes.add(book)
    yield book


def of_profiles(make):
    """What is made for each profile that has it, with the profiles and the end of its name: once where both give the same."""
    made = {profile: make(profile) for profile in BOTH}
    if made["2"] and made["2"] == made["module"]:
        return [(made["2"], BOTH, "")]
    return [(found, [profile], "-module" if profile == "module" else "") for profile, found in made.items() if found]


# ---- APDUs and rows


def apdus(book):
    group = book.group("each APDU", "A line is an object of the name of an APDU and its value, an object of the rows that are there.", line="apdu, value")
    for number, name in enumerate(NAMES[ROOTS["module"]][1]):
        for what, make in [("small", sample), ("full", full)]:
            for (line, octets), profiles, end in of_profiles(lambda profile: apdu_line(profile, number, make)):
                group.built(f"{slug(name)}-{what}{end}", f"{name}, {what}", line, octets, profiles)


def apdu_line(profile, number, make, change=lambda value: value):
    """The line of an APDU of this number, whose value is changed, and its octets."""
    row = ALL_ROWS[ROOTS[profile]][number]
    if row.presence == "LeftOut":
        return None
    apdu = number, make(row.node)
    name, value = body_of(ROOTS[profile], apdu)
    return line_of(name, change(value)), normal(profile, apdu)


def turned(book):
    group = book.group("members in any order", "The members of an object come in any order. The octets are in the order of the tables.", line="order")
    for (line, octets), profiles, end in of_profiles(lambda profile: apdu_line(profile, 0, full, backwards)):
        group.built(f"backwards{end}", "an ILL-REQUEST with each part: in each object the members come backwards", line, octets, profiles)
    group.built("value-first", "the value before the name of the APDU", text({"value": HEAD_VALUE, "apdu": "Expired"}), EXPIRED_OCTETS)
    value = {"responder-note": {"general": "N"}, "answer": True, **HEAD_VALUE}
    octets = message("Cancel-Reply", "9F 23 01 FF", element("BF 2E", "1B 01 4E"))
    group.built("two-rows-turned", "a later row of a CANCEL-REPLY before an earlier one", line_of("Cancel-Reply", value), octets)


def backwards(value):
    if isinstance(value, dict):
        return {name: backwards(inner) for name, inner in reversed(value.items())}
    return [backwards(item) for item in value] if isinstance(value, list) else value


def parts():
    """Each row by the name of its part: its node and its number in each profile that has it."""
    found = {}
    for profile in BOTH:
        for node in reached(ROOTS[profile]):
            if node in ALL_ROWS and node not in ALL_LISTS and node != ROOTS[profile]:
                for i, name in enumerate(NAMES[node][1]):
                    if name:
                        found.setdefault(part_name(node, i), {})[profile] = node, i
    return found


def rows(book):
    present = book.group("each row", "A member has the name of a row.", line="names of rows")
    left_out = book.group("each row that is left out", "A member of a row that the profile leaves out is refused by its name.", cause="LeftOut")
    missing = book.group("each mandatory row", "A mandatory row has a member.", cause="MissingMember")
    for part, places in parts().items():
        name = slug(part)
        for (line, octets), profiles, end in of_profiles(lambda profile: with_row(profile, places)):
            present.built(f"row-{name}{end}", f"{part}, and of the other parts only the mandatory ones", line, octets, profiles)
        for (line, pointer), profiles, end in of_profiles(lambda profile: with_left_out(profile, places)):
            left_out.refused(f"left-out-{name}{end}", f"{part}, which is null", line, "LeftOut", pointer, profiles)
        for (line, pointer), profiles, end in of_profiles(lambda profile: without_row(profile, places)):
            missing.refused(f"missing-{name}{end}", f"each mandatory part but {part}", line, "MissingMember", pointer, profiles)


def row_at(profile, places):
    """The node, the number and the presence of a row; no presence where the profile doesn't have the row."""
    node, i = places.get(profile, (None, None))
    return node, i, ALL_ROWS[node][i].presence if node else None


def changed_line(profile, node, body):
    """The line of the small APDU in which a value of the node is this one."""
    return line_at(profile, shortest_way(node, ROOTS[profile]), body)


def pointer_to(profile, node, i):
    return pointer_at(shortest_way(node, ROOTS[profile]), NAMES[node][1][i])


def with_row(profile, places):
    node, i, presence = row_at(profile, places)
    if presence in (None, "LeftOut"):
        return None
    row = ALL_ROWS[node][i]
    value = (i, sample(row.node)) if node in CHOICES else [other(row) if j == i else entry for j, entry in enumerate(sample(node))]
    apdu = around(node, value, ROOTS[profile])
    return line_of(*body_of(ROOTS[profile], apdu)), normal(profile, apdu)


def with_left_out(profile, places):
    node, i, presence = row_at(profile, places)
    if presence != "LeftOut":
        return None
    body = {} if node in CHOICES else said(node, "", sample(node))
    return changed_line(profile, node, {**body, NAMES[node][1][i]: None}), pointer_to(profile, node, i)


def without_row(profile, places):
    node, i, presence = row_at(profile, places)
    if presence != "Must" or node in CHOICES:
        return None
    body = said(node, "", sample(node))
    del body[NAMES[node][1][i]]
    return changed_line(profile, node, body), pointer_to(profile, node, i)


# ---- the members of a line


def members_of_lines(book):
    group = book.group("the members of a line", "A line may say its profile. What says where a message was may hold anything.", line="members of a line")
    place = {"number": 7, "offset": 0, "octets": 33}
    group.built("as-shown", "a line of show --json", text({**place, "apdu": "Expired", "normal": True, "value": HEAD_VALUE}), EXPIRED_OCTETS)
    shown = text({"file": "a.ber", **place, "apdu": "Expired", "normal": True, "value": HEAD_VALUE})
    group.built("as-shown-of-a-file", "a line of show --json of more files than one", shown, EXPIRED_OCTETS)
    shown = text({**place, "apdu": "Expired", "profile": "module", "normal": True, "value": HEAD_VALUE})
    group.built("as-shown-of-the-module-profile", "a line of show --json --profile module", shown, EXPIRED_OCTETS, MODULE)
    group.built("says-profile-2", "a line that says that it is of profile 2", line_of("Expired", HEAD_VALUE, profile="2"), EXPIRED_OCTETS, ["2"])
    held = {"null": None, "number": Number("-1.5e999"), "text": "\u0100", "list": [[]], "object": Object([("a", 1), ("a", 2)])}
    for name in ("file", "number", "offset", "octets", "normal"):
        for what, value in held.items():
            group.built(f"{name}-holds-{what}", f"{name} is {text(value)}", line_of("Expired", HEAD_VALUE, **{name: value}), EXPIRED_OCTETS)
    spaced = text(HEAD_VALUE).replace(":", " : ").replace(",", "\t,\r")
    group.built("spaces", "spaces, tabs and carriage returns", f'\t\r {{ "apdu" :\r"Expired",\t"value": {spaced} }} \r\t', EXPIRED_OCTETS)
    escaped = EXPIRED.replace("apdu", r"\u0061pdu").replace("Expired", r"E\u0078pired").replace("value", r"valu\u0065").replace("date", r"d\u0061te")
    group.built("escapes-in-names", "escapes in names of members, and in that of the APDU", escaped, EXPIRED_OCTETS)
    group.built("nested-128", "128 levels of objects and lists", nested(NESTING), EXPIRED_OCTETS)
    longest = Runs([[EXPIRED, 1], [" ", LINE_LIMIT - len(EXPIRED)]])
    group.built("longest", "16,777,216 octets, of which most are spaces after the object", longest, EXPIRED_OCTETS)


def defaults(book):
    group = book.group("defaults", "A row with a default may have no member, or say the default. The normal form doesn't have it.", line="defaults")
    for part, places in parts().items():
        for what, comment in DEFAULTS.items():
            for (line, octets), profiles, end in of_profiles(lambda profile: with_default(profile, places, what)):
                group.built(f"default-{slug(part)}-{what}{end}", f"{part} {comment}", line, octets, profiles)
    least = message("ILL-Request", "A9 03 0A 01 01", "AB 0C 80 01 00 81 01 00 82 01 01 83 01 01", "B0 00")
    values = {"transaction-type": 1, "place-on-hold": 3, "retry-flag": False, "forward-flag": False}
    for what, changes in [("absent", {}), ("written", values)]:
        line = line_of("ILL-Request", with_head({**REQUEST_VALUE, **changes}))
        group.built(f"defaults-of-a-request-{what}", f"the four defaults of an ILL-REQUEST are {what}", line, least)


DEFAULTS = {"absent": "has no member", "written": "says its default", "other": "says another value", "zero": "says 0"}


def with_default(profile, places, what):
    """A line in which a row that has a default says it in this way."""
    node, i, presence = row_at(profile, places)
    if presence != "Default":
        return None
    default, entries = default_of(ALL_ROWS[node][i]), sample(node)
    if what == "zero" and isinstance(default, bool):
        return None
    entries[i] = {"other": other(ALL_ROWS[node][i]), "zero": 0}.get(what, default)
    body = said(node, "", entries)
    if what == "absent":
        del body[NAMES[node][1][i]]
    return changed_line(profile, node, body), normal(profile, around(node, entries, ROOTS[profile]))


# ---- numbers, strings and lists


def numbers(book):
    group = book.group("numbers with names", "A number that has a name is said by the number, by its name, or by an object of both.", line="numbers")
    for row, own_names in NUMBER_NAMES.items():
        for number, name in own_names.items():
            ways = {"number": number, "name": name, "both": {"number": number, "name": name}, "turned": {"name": name, "number": number}}
            for how, value in ways.items():
                if how in ("number", "turned") and number != min(own_names):
                    continue
                for (line, octets), profiles, end in of_profiles(lambda profile: with_number(profile, row, value, number)):
                    group.built(f"{row}-{number}-by-{how}{end}", f"{row} is {text(value)}", line, octets, profiles)
        for number in (0, max(own_names) + 1, -1):
            for (line, octets), profiles, end in of_profiles(lambda profile: with_number(profile, row, number, number)):
                group.built(f"{row}-{slug_of(number)}{end}", f"{row} is {number}, which has no name", line, octets, profiles)
    group = book.group("whole numbers", "A number is from -2^63 to 2^63 - 1, and exact.", line="numbers")
    for number in sorted({sign * (2**power + more) for power in (0, 7, 8, 15, 53, 62, 63) for more in (-1, 0, 1) for sign in (1, -1)} | {300}):
        if -(2**63) <= number < 2**63:
            octets = expired(version=element("80", whole(number)))
            group.built(f"number-{slug_of(number)}", f"protocol-version-num is {number}", with_version(number), octets)


def slug_of(number):
    return f"minus-{-number}" if number < 0 else str(number)


def whole(number):
    """The contents of an INTEGER, in the fewest octets of two's complement."""
    size = next(size for size in range(1, 9) if -(2 ** (8 * size - 1)) <= number < 2 ** (8 * size - 1))
    return (number % 2 ** (8 * size)).to_bytes(size, "big")


def with_number(profile, row, value, number):
    """The line in which a row says this, and the octets of the APDU with the number."""
    places = ends(profile, lambda name, node: name == row and node == "Enumerated")
    return (line_at(profile, places[0][0], value), normal(profile, along(places[0][0], number))) if places else None


def strings(book):
    group = book.group("characters", "A string is its characters, each the octet of its number, however JSON spells it.", line="strings")
    for name, spelled, octets in [
        ("empty", '""', ""),
        ("letter", '"A"', "41"),
        ("escaped-letter", r'"\u0041"', "41"),
        ("capital-digits", r'"\u00FF\u00eF"', "FF EF"),
        ("escaped-ff", r'"\u00ff"', "FF"),
        ("ff-as-it-is", '"\u00ff"', "FF"),
        ("80-as-it-is", '"\u0080"', "80"),
        ("a0-as-it-is", '"\u00a0"', "A0"),
        ("del-as-it-is", '"\x7f"', "7F"),
        ("escaped-nul", r'"\u0000"', "00"),
        ("short-escapes", r'"\"\\\/\b\f\n\r\t"', "22 5C 2F 08 0C 0A 0D 09"),
        ("solidus", '"/"', "2F"),
        ("escaped-backslash-and-u", r'"\\u0041"', "5C 75 30 30 34 31"),
    ]:
        octets = expired(group=element("A1", element("1B", octets)))
        group.built(f"general-{name}", f"a GeneralString, which the line has as {spelled}", with_group(f'{{"general":{spelled}}}'), octets)
    for name, characters in [("0e", "\x0e"), ("0f", "\x0f"), ("1b", "\x1b")]:
        octets, line = expired(group=element("A1", element("1B", characters.encode()))), with_group(text({"general": characters}))
        group.built(f"general-{name}-module", f"a GeneralString of the octet {name.upper()}, which the module profile reads", line, octets, MODULE)
    for name, characters in [("space", " "), ("tilde", "~"), ("letters", "A Z")]:
        octets, line = expired(group=element("A1", element("1A", characters.encode()))), with_group(text({"visible": characters}))
        group.built(f"visible-{name}", f"the VisibleString {text(characters)}", line, octets)
    printable = "ABCDEFGHIJKLMNOPQRSTUVWXYZabcdefghijklmnopqrstuvwxyz0123456789 '()+,-./:=?"
    octets = message("Returned", "9F 25 08 32 30 32 34 30 32 32 39", element("BF 27", element("81", printable.encode())))
    group.built("printable-each", "a PrintableString of each character", with_amount(printable), octets)
    for day in ("00000101", "20240229", "20000229", "99991231"):
        group.built(f"date-{day}", f"the day {day}", with_date(day), expired(date=element("80", day.encode())))
    for time in ("000000", "235960", "240000"):
        octets = expired(date=element("80", b"20240229") + element("81", time.encode()))
        group.built(f"time-{time}", f"the time {time}", with_date("20240229", time=time), octets)


def lists(book):
    group = book.group("lists", "A SEQUENCE OF is a list of its items, in their order.", line="lists")
    request = {"requester-optional-messages": REQUEST_VALUE["requester-optional-messages"], "item-id": {}}
    for name, items, octets in [
        ("empty", [], ""),
        ("one", [3], "0A 01 03"),
        ("order", [3, 1, "copy-non-returnable", {"name": "loan", "number": 1}], "0A 01 03 0A 01 01 0A 01 02 0A 01 01"),
        ("hundred", [1] * 100, "0A 01 01" * 100),
    ]:
        octets = message("ILL-Request", element("A9", octets), "AB 0C 80 01 00 81 01 00 82 01 01 83 01 01", "B0 00")
        group.built(f"list-{name}", f"{len(items)} service types", line_of("ILL-Request", with_head({**request, "ill-service-type": items})), octets)


def sizes(book):
    limit = "octets of a normal form: 1,048,576"
    group = book.group("size of the normal form", "A normal form has at most 1,048,576 octets.", limit=limit)
    for which, (way, _) in zip(["first", "last"], ends("2", lambda name, node: node == "IllString")):
        line, octets = filled("2", way, NORMAL_LIMIT)
        group.built(f"normal-form-by-{which}-text", f"1,048,576 octets, by the {which} text", line, octets)


# ---- what only the module profile has


def module_leaves(book):
    words = "NULL, OBJECT IDENTIFIER, OCTET STRING, BIT STRING, ObjectDescriptor."
    group = book.group("leaves of the module profile", words, line="leaves of the module profile")
    group.built("null", "a NULL is null", damaged({"damaged-portion": {"complete-document": None}}), of_damaged("81 00"), MODULE)
    for name, shown, content in [
        ("0-0", "0.0", "00"),
        ("0-39", "0.39", "27"),
        ("1-39", "1.39", "4F"),
        ("2-0", "2.0", "50"),
        ("2-999", "2.999", "88 37"),
        ("z3950", "1.2.840.10003.5.10", "2A 86 48 CE 13 05 0A"),
        ("largest-number", "1.2.9223372036854775807", "2A FF FF FF FF FF FF FF FF 7F"),
        ("largest-second-number", "2.9223372036854775727", "FF FF FF FF FF FF FF FF 7F"),
        ("larger-number", "oid 2a81808080808080808000", "2A 81 80 80 80 80 80 80 80 80 00"),
        ("larger-first-number", "oid 81808080808080808000", "81 80 80 80 80 80 80 80 80 00"),
    ]:
        group.built(f"oid-{name}", f"the OBJECT IDENTIFIER {shown}", with_identifier(shown), of_damaged(element("80", content), "81 00"), MODULE)
    for name, shown, content in [("empty", "", ""), ("one", "00", "00"), ("all", bytes(range(256)).hex(), bytes(range(256)).hex())]:
        line = returned({"encoding": {"octet-aligned": {"octets": shown}}})
        group.built(f"octets-{name}", f"an OCTET STRING, {name}", line, of_returned(element("81", content)), MODULE)
    for count, shown, content in [(0, "", "00"), (1, "80", "07 80"), (5, "f8", "03 F8"), (8, "ff", "00 FF"), (9, "ff80", "07 FF 80"), (16, "0000", "00 00 00")]:
        line = returned({"encoding": {"arbitrary": {"bits": count, "octets": shown}}})
        group.built(f"bits-{count}", f"a BIT STRING of {count} bits", line, of_returned(element("82", content)), MODULE)
    line = returned({"encoding": {"arbitrary": {"octets": "f8", "bits": 5}}})
    group.built("bits-turned", "the octets of a BIT STRING before its number of bits", line, of_returned("82 02 03 F8"), MODULE)
    line = returned({"data-value-descriptor": "\x1b\x0e\xff", "encoding": {"octet-aligned": {"octets": ""}}})
    group.built("descriptor", "an ObjectDescriptor of any octets", line, of_returned("07 03 1B 0E FF", "81 00"), MODULE)
    foreign(book)


FOREIGN = {
    "null": ("0500", "a NULL"),
    "universal-0": ("2000", "universal 0, constructed"),
    "tag-30": ("de00", "the tag number 30, in one octet"),
    "tag-31": ("df1f00", "the tag number 31, in two octets"),
    "greatest-tag": ("dfffffff7f00", "the greatest tag number, in five octets"),
    "length-127": ("047f" + "41" * 127, "a length of 127, in one octet"),
    "length-128": ("048180" + "41" * 128, "a length of 128, in two octets"),
    "two-elements": ("30060500 0402ffff".replace(" ", ""), "a SEQUENCE of two elements"),
    "20-levels": (levels(20), "20 levels"),
}


def foreign(book):
    group = book.group("values of open types", "The value of an open type is an object of its octets, which are DER.", line="leaves of the module profile")
    for name, (octets, what) in FOREIGN.items():
        group.built(f"foreign-{name}", what, with_extension({"foreign": octets}), of_extension(octets), MODULE)
