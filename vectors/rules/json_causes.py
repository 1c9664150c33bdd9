"""Lines that are refused: each cause at its first and its last place, what has it, and which of two faults counts."""
from model.builder import Number, Object
from model.tables import ALL_LISTS, ALL_ROWS, CHOICES, NAMES, NUMBER_NAMES

from rules.book import BOTH
from rules.lines import EXPIRED, LINE_LIMIT, MODULE, NESTING, NORMAL_LIMIT, Runs, ends, filled, levels, line_at, line_of, nested, pointer_at, returned
from rules.lines import said, text, with_amount, with_date, with_extension, with_group, with_identifier, with_version
from rules.messages import HEAD_VALUE, REQUEST_VALUE, sample, with_head

NUMBERS = {"Integer", "Enumerated"}
DATES = {"IsoDate", "IsoTime"}
# the types that a line has as an object of one member
ONE_MEMBER = {"IllString": "general", "OctetString": "octets", "Any": "foreign"}
WORDS = {
    "NotJson": "The line is no text of JSON (RFC 8259) in UTF-8, has half of a surrogate pair, or nests deeper than 128 levels. The place is the line.",
    "LineTooLong": "The line has more than 16,777,216 octets. The place is the line.",
    "WrongType": "Another type of JSON is due.",
    "UnknownMember": "No row has the name, or no member of a line. The place ends with the name.",
    "RepeatedMember": "A member of this name came before in the object. The place ends with the name.",
    "LeftOut": "The profile leaves the row out, or the APDU. The place ends with its name; of an APDU it is apdu.",
    "MissingMember": "A member that has to be there is missing. The place ends with its name.",
    "NotOneMember": "A choice or an ILL-String has no member, or two.",
    "UnknownName": "No number of the row has the name; no APDU or no profile has it.",
    "OtherName": "The number has another name, or none. The place is that of the name.",
    "NotWhole": "The number has a point or an exponent, or is -0.",
    "NumberTooLong": "The number is not from -2^63 to 2^63 - 1, or a number of bits not from 0 to 2^63 - 1.",
    "BadCharacter": "The string has a character past U+00FF.",
    "BadText": "The string has a character outside its alphabet.",
    "BadDate": "The string is not eight digits of a day that exists.",
    "BadTime": "The string is not six digits of a time of day.",
    "BadHexadecimal": "The string is not pairs of digits 0 to 9 and a to f.",
    "BadBits": "There are more bits than the octets have, or fewer by eight; or one of the bits after them is 1.",
    "BadOid": "The string is not numbers with dots between them, each below 2^63; or it is `oid` and a content that has no number of 2^63 or more.",
    "BadForeign": "The octets are not the DER of one element of at most 20 levels, with tag numbers of at most four octets.",
    "NormalTooLong": "The normal form would have more than 1,048,576 octets. The place is the line.",
    "OtherProfile": "The line says that it is of the other profile.",
}


def add(book):
    first_and_last(book)
    no_json(book)
    types(book)
    names(book)
    leaves(book)
    order(book)


# ---- first and last places


def first_and_last(book):
    """Each cause at the first place where it can come, in the order in which lines are judged, and at the last place of the last APDU that has one."""
    for cause, words in WORDS.items():
        group = book.group(cause, words, cause=cause)
        for which, at_line in [("first", FIRST), ("last", LAST)]:
            made = {profile: at_line[cause](profile) if cause in at_line else at_end(cause, which, profile) for profile in BOTH}
            made = {profile: found for profile, found in made.items() if found}
            if len(made) == 2 and made["2"] == made["module"]:
                made = {None: made["2"]}
            for profile, (line, pointer, what) in made.items():
                end = "-module" if profile == "module" and len(made) == 2 else ""
                group.refused(f"{cause.lower()}-{which}{end}", f"the {which} place: {what}", line, cause, pointer, [profile] if profile else BOTH)


def whole(line, pointer, what):
    """A line that is refused so in both profiles."""
    return lambda profile: (line, pointer, what)


def only_in_2(line, pointer, what):
    return lambda profile: (line, pointer, what) if profile == "2" else None


def other_profile(apdu):
    """A line that says the other profile."""
    return lambda profile: (text({"profile": "module" if profile == "2" else "2", **apdu}), "/profile", "the profile")


def too_long(which):
    """A line whose normal form has an octet too many, by the text at an end of the profile."""

    def made(profile):
        way, _ = ends(profile, lambda name, node: node == "IllString")[0 if which == "first" else 1]
        line, _ = filled(profile, way, NORMAL_LIMIT + 1)
        return line, "", f"the normal form has an octet too many, by the {which} text"

    return made


AT_SPACES = [[EXPIRED, 1], [" ", LINE_LIMIT - len(EXPIRED) - 1]]
# the places that are not in the value
FIRST = {
    "NotJson": whole("", "", "a line of no octets"),
    "LineTooLong": whole(Runs([[" ", LINE_LIMIT + 1]]), "", "no JSON, of one octet too many"),
    "WrongType": whole("[]", "", "a line that is a list"),
    "UnknownMember": whole('{"x":1}', "/x", "the first member of the line"),
    "RepeatedMember": whole('{"apdu":"Expired","apdu":"Expired"}', "/apdu", "the second member of the line"),
    "LeftOut": only_in_2(line_of("Forward-Notification", {}), "/apdu", "the APDU"),
    "MissingMember": whole("{}", "/apdu", "the APDU"),
    "UnknownName": whole('{"profile":"3"}', "/profile", "the profile"),
    "NormalTooLong": too_long("first"),
    "OtherProfile": other_profile({}),
}
LAST = {
    "NotJson": whole(Runs([*AT_SPACES, ["x", 1]]), "", "the last octet of a line of the greatest size"),
    "LineTooLong": whole(Runs([*AT_SPACES, [" ", 2]]), "", "a line that says an APDU, of one octet too many"),
    "LeftOut": only_in_2(line_of("Expired", {**HEAD_VALUE, "expired-extensions": []}), "/value/expired-extensions", "the last row"),
    "NormalTooLong": too_long("last"),
    "OtherProfile": other_profile({"apdu": "Expired", "value": HEAD_VALUE}),
}


def at_end(cause, which, profile):
    """The line of an end of the profile that has this fault there; None where the profile has no such place."""
    is_wanted, faulty = VALUES[cause]
    places = ends(profile, is_wanted)
    if not places:
        return None
    way, node = places[0 if which == "first" else 1]
    value, *steps = faulty(node)
    return line_at(profile, way, value), pointer_at(way, *steps), pointer_at(way, *steps)


def is_sequence(node):
    return node in ALL_ROWS and node not in ALL_LISTS and node not in CHOICES


def is_choice(node):
    return node in CHOICES and NAMES[node][1] != [""]


def is_object(name, node):
    return is_sequence(node) or is_choice(node) or node in ONE_MEMBER


def has_mandatory(name, node):
    return is_sequence(node) and any(row.presence == "Must" for row in ALL_ROWS[node]) or node in ("OctetString", "BitString", "Any")


def members(node):
    """The names of members of an object."""
    return [ONE_MEMBER[node]] if node in ONE_MEMBER else NAMES[node][1]


def wrong_type(node):
    if node in ONE_MEMBER:
        return {ONE_MEMBER[node]: None}, ONE_MEMBER[node]
    return (False if node == "Null" else None,)


def without_last(node):
    """A value without its last mandatory member."""
    if not is_sequence(node):
        return {}, members(node)[0]
    name = [name for name, row in zip(NAMES[node][1], ALL_ROWS[node]) if row.presence == "Must"][-1]
    body = said(node, "", sample(node))
    del body[name]
    return body, name


def in_member(value):
    """A value that is wrong by itself, or in the one member of an object."""
    return lambda node: ({ONE_MEMBER[node]: value}, ONE_MEMBER[node]) if node in ONE_MEMBER else (value,)


def bad_hexadecimal(node):
    return ({"bits": 8, "octets": "FF"}, "octets") if node == "BitString" else in_member("FF")(node)


def has_names(name, node):
    return node == "Enumerated" and name in NUMBER_NAMES


def is_of(*nodes):
    return lambda name, node: node in nodes


# where each cause of a value comes, and the value there with the steps to the fault
VALUES = {
    "WrongType": (lambda name, node: True, wrong_type),
    "UnknownMember": (is_object, lambda node: ({"x": None}, "x")),
    "RepeatedMember": (is_object, lambda node: (Object([(members(node)[0], None)] * 2), members(node)[0])),
    "MissingMember": (has_mandatory, without_last),
    "NotOneMember": (lambda name, node: is_choice(node) or node == "IllString", lambda node: ({},)),
    "UnknownName": (has_names, lambda node: ("x",)),
    "OtherName": (has_names, lambda node: ({"number": 1, "name": "x"}, "name")),
    "NotWhole": (is_of(*NUMBERS), lambda node: (Number("1.0"),)),
    "NumberTooLong": (is_of(*NUMBERS), lambda node: (Number("9223372036854775808"),)),
    "BadCharacter": (is_of(*DATES, "PrintableString", "ObjectDescriptor", "IllString"), in_member("\u0100")),
    "BadText": (is_of("PrintableString", "IllString"), lambda node: ({"visible": "\x7f"}, "visible") if node == "IllString" else ("*",)),
    "BadDate": (is_of("IsoDate"), lambda node: ("20230229",)),
    "BadTime": (is_of("IsoTime"), lambda node: ("240001",)),
    "BadHexadecimal": (is_of("OctetString", "BitString", "Any"), bad_hexadecimal),
    "BadBits": (is_of("BitString"), lambda node: ({"bits": 7, "octets": "ff"},)),
    "BadOid": (is_of("ObjectIdentifier"), lambda node: ("1.40",)),
    "BadForeign": (is_of("Any"), in_member("05")),
}


# ---- what is no JSON


def no_json(book):
    group = book.group("no text of JSON", "A line is one value of JSON (RFC 8259), and white space around it.", cause="NotJson")
    for name, what, line in [
        ("spaces", "white space alone", " \t"),
        ("cut", "a line without its last octet", EXPIRED[:-1]),
        ("two", "two objects", EXPIRED + EXPIRED),
        ("comma", "a comma after the object", EXPIRED + ","),
        ("comma-before-end", "a comma before the end of an object", EXPIRED[:-1] + ",}"),
        ("no-comma", "no comma between two members", EXPIRED.replace(',"value"', ' "value"')),
        ("no-colon", "no colon after a name", EXPIRED.replace('"apdu":', '"apdu" ')),
        ("no-value", "a member without its value", '{"apdu":}'),
        ("name-without-quotes", "a name without quotes", EXPIRED.replace('"apdu"', "apdu")),
        ("single-quotes", "single quotes", EXPIRED.replace('"', "'")),
        ("comment", "a comment", EXPIRED + "// x"),
        ("byte-order-mark", "a byte order mark before the object", "\ufeff" + EXPIRED),
        ("no-break-space", "U+00A0 before the object", "\u00a0" + EXPIRED),
        ("form-feed", "a form feed before the object", "\f" + EXPIRED),
        ("nul", "a NUL after the object", EXPIRED + "\0"),
        ("nan", "NaN", with_version(Number("NaN"))),
        ("infinity", "Infinity", with_version(Number("-Infinity"))),
        ("plus", "a number with a plus", with_version(Number("+2"))),
        ("leading-zero", "a number with a leading zero", with_version(Number("02"))),
        ("point-first", "a number that begins with its point", with_version(Number(".2"))),
        ("point-last", "a number that ends with its point", with_version(Number("2."))),
        ("no-exponent", "a number whose exponent has no digits", with_version(Number("2e"))),
        ("minus-alone", "a minus alone", with_version(Number("-"))),
        ("hexadecimal", "a number in hexadecimal", with_version(Number("0x2"))),
        ("capital-null", "NULL for null", with_version(Number("NULL"))),
        ("control", "a control character in a string", with_group('{"general":"\x1f"}')),
        ("tab", "a tab in a string", with_group('{"general":"\t"}')),
        ("escape", "an escape that JSON doesn't have", with_group('{"general":"\\x41"}')),
        ("short-escape", "an escape of three digits", with_group('{"general":"\\u004"}')),
        ("capital-escape", "an escape with a capital U", with_group('{"general":"\\U0041"}')),
        ("open-string", "a string that doesn't end", with_group('{"general":"A}')),
        ("high-surrogate", "the first half of a surrogate pair", with_group('{"general":"\\ud83d"}')),
        ("low-surrogate", "the second half of a surrogate pair", with_group('{"general":"\\ude00"}')),
        ("turned-surrogates", "the halves of a surrogate pair in the other order", with_group('{"general":"\\ude00\\ud83d"}')),
        ("surrogate-in-name", "half of a surrogate pair in a name", with_group('{"\\ud83d":"A"}')),
        ("surrogate-not-read", "half of a surrogate pair in a member that is not read", line_of("Expired", HEAD_VALUE, file="\ud83d")),
        ("nested-129", "129 levels of objects and lists", nested(NESTING + 1)),
        ("nested-100000", "100,000 lists that don't end", Runs([["[", 100_000]])),
        ("ff", "the octet FF in a string", with_group('{"general":"@"}').encode().replace(b"@", b"\xff")),
        ("latin-1", "a letter of Latin-1 as one octet", with_group('{"general":"@"}').encode().replace(b"@", b"\xe9")),
        ("cut-character", "a character of UTF-8 that is cut", with_group('{"general":"@"}').encode().replace(b"@", b"\xc3")),
        ("overlong", "a character in more octets than it has", with_group('{"general":"@"}').encode().replace(b"@", b"\xc1\x81")),
        ("encoded-surrogate", "half of a surrogate pair as three octets", with_group('{"general":"@"}').encode().replace(b"@", b"\xed\xa0\x80")),
        ("past-unicode", "a character past U+10FFFF", with_group('{"general":"@"}').encode().replace(b"@", b"\xf4\x90\x80\x80")),
        ("utf-16", "UTF-16", EXPIRED.encode("utf-16-le")),
    ]:
        group.refused(f"no-json-{name}", what, line, "NotJson")


# ---- types of JSON

JSON_TYPES = {"null": None, "true": True, "number": 1, "string": "A", "list": [], "object": {}}


def types(book):
    group = book.group("types", "Each type of the tables is one type of JSON, and a number with names one of three.", cause="WrongType")
    whole_lines = [
        ("line", "object", lambda value: text(value), ""),
        ("profile", "string", lambda value: line_of("Expired", HEAD_VALUE, profile=value), "/profile"),
        ("apdu", "string", lambda value: line_of(value, HEAD_VALUE), "/apdu"),
        ("value", "object", lambda value: line_of("Expired", value), "/value"),
    ]
    for what, due, make, pointer in whole_lines:
        for name, value in JSON_TYPES.items():
            if name != due:
                group.refused(f"type-of-{what}-{name}", f"{what} is {text(value)}", make(value), "WrongType", pointer)
    for kind, is_wanted, due, wrap, *steps in KINDS:
        for name, value in JSON_TYPES.items():
            if name not in due.split():
                made = {profile: at(profile, is_wanted, wrap(value), steps) for profile in BOTH}
                made = {profile: found for profile, found in made.items() if found}
                profiles = [profile for profile in made if made[profile] == made[list(made)[0]]]
                line, pointer = made[profiles[0]]
                group.refused(f"type-of-{kind}-{name}", f"{kind.replace('-', ' ')} is {text(value)}", line, "WrongType", pointer, profiles)


def at(profile, is_wanted, value, steps):
    """The line with a value at the first place of a profile, and the pointer; None where there is no place."""
    places = ends(profile, is_wanted)
    return (line_at(profile, places[0][0], value), pointer_at(places[0][0], *steps)) if places else None


def itself(value):
    return value


def member(own_name, **more):
    return lambda value: {**more, own_name: value}


# each kind of value: where it is, the types of JSON that are due, how the wrong one is put there, and the steps to it
KINDS = [
    ("a-sequence", lambda name, node: is_sequence(node), "object", itself),
    ("a-list", lambda name, node: node in ALL_LISTS, "list", itself),
    ("a-choice", lambda name, node: is_choice(node), "object", itself),
    ("a-boolean", is_of("Boolean"), "true", itself),
    ("a-number", lambda name, node: node in NUMBERS and name not in NUMBER_NAMES, "number", itself),
    ("a-number-with-names", has_names, "number string object", itself),
    ("the-number-beside-a-name", has_names, "number", member("number", name="loan"), "number"),
    ("the-name-beside-a-number", has_names, "string", member("name", number=1), "name"),
    ("a-date", is_of("IsoDate"), "string", itself),
    ("a-time", is_of("IsoTime"), "string", itself),
    ("a-printable-string", is_of("PrintableString"), "string", itself),
    ("an-ill-string", is_of("IllString"), "object", itself),
    ("a-general-string", is_of("IllString"), "string", member("general"), "general"),
    ("a-visible-string", is_of("IllString"), "string", member("visible"), "visible"),
    ("a-null", is_of("Null"), "null", itself),
    ("an-object-identifier", is_of("ObjectIdentifier"), "string", itself),
    ("an-octet-string", is_of("OctetString"), "object", itself),
    ("the-octets-of-an-octet-string", is_of("OctetString"), "string", member("octets"), "octets"),
    ("a-bit-string", is_of("BitString"), "object", itself),
    ("the-bits-of-a-bit-string", is_of("BitString"), "number", member("bits", octets="ff"), "bits"),
    ("the-octets-of-a-bit-string", is_of("BitString"), "string", member("octets", bits=8), "octets"),
    ("an-object-descriptor", is_of("ObjectDescriptor"), "string", itself),
    ("an-open-type", is_of("Any"), "object", itself),
    ("the-octets-of-an-open-type", is_of("Any"), "string", member("foreign"), "foreign"),
]


# ---- names and pointers


def names(book):
    group = book.group("names of no member", "A name is compared character by character. In a pointer ~ is ~0 and / is ~1 (RFC 6901).", cause="UnknownMember")
    for name, member_name, pointer in [
        ("capital", "Protocol-version-num", "Protocol-version-num"),
        ("space", "protocol-version-num ", "protocol-version-num "),
        ("shorter", "protocol-version", "protocol-version"),
        ("empty", "", ""),
        ("digits", "0", "0"),
        ("slash", "a/b", "a~1b"),
        ("tilde", "a~b", "a~0b"),
        ("slash-and-tilde", "~1/~0", "~01~1~00"),
        ("quotes", '"\\', '"\\'),
        ("control", "\0\n\x1f", "\0\n\x1f"),
        ("latin-1", "\u00e9", "\u00e9"),
        ("past-latin-1", "\u20ac\U0001f4da", "\u20ac\U0001f4da"),
        ("of-another-apdu", "date-due", "date-due"),
        ("of-the-line", "apdu", "apdu"),
    ]:
        line = line_of("Expired", {**HEAD_VALUE, member_name: 2})
        group.refused(f"unknown-{name}", f"a member {text(member_name)} in the value", line, "UnknownMember", f"/value/{pointer}")
        if name != "of-the-line":
            line = line_of("Expired", HEAD_VALUE, **{member_name: 2})
            group.refused(f"unknown-{name}-of-the-line", f"a member {text(member_name)} in the line", line, "UnknownMember", f"/{pointer}")
    group = book.group("names of APDUs and profiles", "The name of an APDU is that of its row, and a profile is 2 or module.", cause="UnknownName")
    for name, apdu in [("small", "expired"), ("empty", ""), ("number", "20"), ("space", "Expired "), ("node", "IllApdu"), ("latin-1", "\u00c9xpired")]:
        group.refused(f"apdu-{name}", f"the APDU {text(apdu)}", line_of(apdu, HEAD_VALUE), "UnknownName", "/apdu")
    for name, profile in [("1", "1"), ("capital", "Module"), ("empty", ""), ("two", "two")]:
        group.refused(f"profile-{name}", f"the profile {text(profile)}", line_of("Expired", HEAD_VALUE, profile=profile), "UnknownName", "/profile")
    group = book.group("APDUs that are left out", "A line of an APDU that profile 2 leaves out is refused by its name.", cause="LeftOut")
    for apdu in ("Forward-Notification", "Status-Or-Error-Report"):
        group.refused(f"apdu-left-out-{apdu.lower()}", apdu, line_of(apdu, HEAD_VALUE), "LeftOut", "/apdu", ["2"])


# ---- leaves


def leaves(book):
    numbers_of(book)
    texts_of(book)
    hexadecimal(book)
    bits(book)
    identifiers(book)
    foreign(book)


def numbers_of(book):
    place = "/value/protocol-version-num"
    group = book.group("numbers that are not whole", "A number is written without point, exponent and -0.", cause="NotWhole")
    for name, number in {
        "point": "2.0",
        "exponent": "2e0",
        "capital-exponent": "2E0",
        "minus-zero": "-0",
        "zero-point": "0.0",
        "huge": "1e999999",
        "many-digits": "9" * 30 + ".0",
    }.items():
        group.refused(f"not-whole-{name}", f"the number {number}", with_version(Number(number)), "NotWhole", place)
    group = book.group("numbers that are too long", "A number is from -2^63 to 2^63 - 1.", cause="NumberTooLong")
    long = int("9" * 30)
    for name, number in {"2-63": 2**63, "minus-2-63-less-1": -(2**63) - 1, "2-64": 2**64, "30-digits": long, "minus-30-digits": -long}.items():
        group.refused(f"too-long-{name}", f"the number {number}", with_version(number), "NumberTooLong", place)
    numbers_and_names(book)


def numbers_and_names(book):
    group = book.group("numbers and names", "A name is that of a number of the row, and of the number beside it.", cause="OtherName")
    for name, value, cause, step in [
        ("other", {"number": 1, "name": "locations"}, "OtherName", "/name"),
        ("of-another-row", {"number": 1, "name": "simple"}, "OtherName", "/name"),
        ("of-a-number-without-one", {"number": 6, "name": "loan"}, "OtherName", "/name"),
        ("of-zero", {"number": 0, "name": "loan"}, "OtherName", "/name"),
        ("capital", {"number": 1, "name": "Loan"}, "OtherName", "/name"),
        ("capital-alone", "Loan", "UnknownName", ""),
        ("of-another-row-alone", "simple", "UnknownName", ""),
        ("digits-alone", "1", "UnknownName", ""),
        ("empty-alone", "", "UnknownName", ""),
        ("number-missing", {"name": "loan"}, "MissingMember", "/number"),
        ("name-missing", {"number": 1}, "MissingMember", "/name"),
        ("neither", {}, "MissingMember", "/number"),
        ("another-member", {"number": 1, "name": "loan", "x": 1}, "UnknownMember", "/x"),
        ("twice", Object([("number", 1), ("number", 1), ("name", "loan")]), "RepeatedMember", "/number"),
    ]:
        group.refused(f"name-{name}", f"the service type {text(value)}", requested(value), cause, f"/value/ill-service-type/0{step}")


def requested(*items):
    """An ILL-REQUEST of these service types."""
    return line_of("ILL-Request", with_head({**REQUEST_VALUE, "ill-service-type": list(items)}))


def texts_of(book):
    group = book.group("alphabets", "A character is that of an octet, and the octet is of the alphabet.", cause="BadText")
    place = "/value/transaction-id/transaction-group-qualifier"
    for name, kind, characters, cause, profiles in [
        ("general-0e", "general", "\x0e", "BadText", ["2"]),
        ("general-0f", "general", "\x0f", "BadText", ["2"]),
        ("general-1b", "general", "A\x1bA", "BadText", ["2"]),
        ("general-100", "general", "A\u0100", "BadCharacter", BOTH),
        ("general-past-ffff", "general", "\U0001f4da", "BadCharacter", BOTH),
        ("visible-1f", "visible", "\x1f", "BadText", BOTH),
        ("visible-7f", "visible", "\x7f", "BadText", BOTH),
        ("visible-ff", "visible", "\xff", "BadText", BOTH),
        ("visible-100", "visible", "\u0100", "BadCharacter", BOTH),
        ("visible-7f-and-100", "visible", "\x7f\u0100", "BadCharacter", BOTH),
    ]:
        group.refused(f"text-bad-{name}", f"{kind} is {text(characters)}", with_group(text({kind: characters})), cause, f"{place}/{kind}", profiles)
    for name, character in {"asterisk": "*", "ampersand": "&", "at": "@", "underscore": "_", "semicolon": ";", "tab": "\t", "ff": "\xff"}.items():
        line = with_amount("1" + character)
        group.refused(f"printable-bad-{name}", f"{text(character)} in a PrintableString", line, "BadText", "/value/insured-for/monetary-value")
    days_and_times(book)


def days_and_times(book):
    place = "/value/service-date-time/date-time-of-this-service"
    group = book.group("days", "A date is eight digits, of a day that exists.", cause="BadDate")
    for name, date in {
        "29": "20230229",
        "1900": "19000229",
        "month-13": "20241301",
        "day-0": "20240200",
        "hyphens": "2024-02-29",
        "seven": "2024022",
        "nine": "202402290",
        "empty": "",
        "letter": "2024022A",
    }.items():
        group.refused(f"date-bad-{name}", f"the date {text(date)}", with_date(date), "BadDate", f"{place}/date")
    group.refused("date-bad-past-latin-1", "a digit that is not ASCII", with_date("2024022\u0669"), "BadCharacter", f"{place}/date")
    group = book.group("times", "A time is six digits, of a time of day.", cause="BadTime")
    for name, time in {
        "second-61": "235961",
        "after-24": "240001",
        "minute-60": "126000",
        "hour-25": "250000",
        "colons": "12:00:00",
        "four": "1200",
        "empty": "",
    }.items():
        group.refused(f"time-bad-{name}", f"the time {text(time)}", with_date("20240229", time=time), "BadTime", f"{place}/time")


EXTERNAL, ITEM = "/value/supplemental-item-description/0", "/value/expired-extensions/0/item"


def with_octets(octets):
    return returned({"encoding": {"octet-aligned": {"octets": octets}}})


def with_bits(*pairs):
    return returned({"encoding": {"arbitrary": Object(pairs)}})


def hexadecimal(book):
    group = book.group("hexadecimal", "Octets are pairs of digits 0 to 9 and a to f.", cause="BadHexadecimal")
    for name, digits in {
        "odd": "0",
        "capital": "0A",
        "space": "00 00",
        "prefix": "0x00",
        "letter": "0g",
        "latin-1": "0\u00e9",
        "past-latin-1": "00\u0660\u0660",
    }.items():
        for what, line, pointer in [
            ("octets", with_octets(digits), f"{EXTERNAL}/encoding/octet-aligned/octets"),
            ("bits", with_bits(("bits", 8), ("octets", digits)), f"{EXTERNAL}/encoding/arbitrary/octets"),
            ("foreign", with_extension({"foreign": digits}), f"{ITEM}/foreign"),
        ]:
            group.refused(f"{what}-{name}", f"the octets {text(digits)}", line, "BadHexadecimal", pointer, MODULE)


def bits(book):
    group = book.group("bits", "The octets are as many as the bits need, and the bits after the last one are 0.", cause="BadBits")
    for name, count, octets, cause, *step in [
        ("more", 9, "ff", "BadBits"),
        ("fewer-by-eight", 0, "00", "BadBits"),
        ("an-octet-more", 8, "ff00", "BadBits"),
        ("one-after", 7, "ff", "BadBits"),
        ("one-of-none", 1, "", "BadBits"),
        ("greatest", 2**63 - 1, "ff", "BadBits"),
        ("below-0", -1, "ff", "NumberTooLong", "bits"),
        ("2-63", 2**63, "ff", "NumberTooLong", "bits"),
        ("point", Number("8.0"), "ff", "NotWhole", "bits"),
        ("minus-zero", Number("-0"), "", "NotWhole", "bits"),
    ]:
        line, pointer = with_bits(("bits", count), ("octets", octets)), "/".join([f"{EXTERNAL}/encoding/arbitrary", *step])
        group.refused(f"bits-bad-{name}", f"{text(count)} bits of {text(octets)}", line, cause, pointer, MODULE)


def identifiers(book):
    words = "Two numbers at least, with dots between them. The first is at most 2, and below 2 the second is at most 39."
    group = book.group("OBJECT IDENTIFIERs", words, cause="BadOid")
    for name, identifier in {
        "empty": "",
        "one-number": "1",
        "3": "3.1",
        "1-40": "1.40",
        "dot-first": ".1.2",
        "dot-last": "1.2.",
        "two-dots": "1..2",
        "leading-zero": "1.02",
        "minus": "1.-2",
        "space": "1.2 3",
        "letter": "1.a",
        "braces": "{1 2 3}",
        "2-63": "1.2.9223372036854775808",
        "second-2-63": "2.9223372036854775728",
        "oid-in-decimals": "oid 2a03",
        "oid-empty": "oid ",
        "oid-padded": "oid 2a8001",
        "oid-cut": "oid 2a80",
        "oid-odd": "oid 2a8",
        "oid-capital": "oid 2A81808080808080808000",
        "oid-capital-word": "OID 2a81808080808080808000",
        "past-latin-1": "1.\u0662",
    }.items():
        line, pointer = with_identifier(identifier), "/value/damaged-details/document-type-id"
        group.refused(f"oid-bad-{name}", f"the OBJECT IDENTIFIER {text(identifier)}", line, "BadOid", pointer, MODULE)


def foreign(book):
    group = book.group("DER of open types", "The octets are those of one element, with the shortest identifiers and lengths.", cause="BadForeign")
    for name, octets, what in [
        ("empty", "", "no octets"),
        ("cut", "0401", "an element without its content"),
        ("cut-identifier", "df", "an identifier that doesn't end"),
        ("no-length", "05", "no length octet"),
        ("two", "05000500", "two elements"),
        ("after", "050000", "an octet after the element"),
        ("universal-0", "0000", "universal 0, primitive"),
        ("indefinite", "30800000", "the indefinite form"),
        ("length-81", "048101ff", "a length of 1 in two octets"),
        ("length-82", "04820080" + "00" * 128, "a length of 128 in three octets"),
        ("length-ff", "04ff", "the length octet FF"),
        ("tag-30", "df1e00", "the tag number 30 in two octets"),
        ("padded-tag", "df801f00", "a tag number with a padding octet"),
        ("five-octets-of-tag", "df818080800000", "a tag number of five octets"),
        ("inner-long", "3003048100", "a length in the long form within the element"),
        ("inner-past-end", "300304050000", "an element past the end of the one that it is in"),
        ("21-levels", levels(21), "21 levels"),
    ]:
        group.refused(f"foreign-bad-{name}", what, with_extension({"foreign": octets}), "BadForeign", f"{ITEM}/foreign", MODULE)


# ---- which of two faults counts


def order(book):
    words = "The line first, then each object: its members in their order, then its rows in the order of the tables, each as deep as it goes."
    group = book.group("which fault counts", words, cause="order of judgement")
    for name, what, line, *found in [*of_lines(), *of_objects(), *of_choices_and_lists(), *of_leaves()]:
        for cause, pointer, *profiles in found:
            end = "-module" if profiles == [MODULE] and len(found) == 2 else ""
            group.refused(f"order-{name}{end}", what, line, cause, pointer, *profiles)


TWO = ["2"]
NULLS = {"protocol-version-num": None, "transaction-id": None, "service-date-time": None}


def of_lines():
    """The members of a line, its profile, its APDU, its value, and the size of the normal form."""
    way, _ = ends("2", lambda name, node: node == "IllString")[1]
    line, _ = filled("2", way, NORMAL_LIMIT + 1)
    start = line[0][0].replace("{", '{"normal":0,', 1)
    return [
        ("no-json-and-member", "an unknown member, and no end of the object", '{"x":1', ("NotJson", "")),
        ("unknown-and-repeated", "an unknown member, and after it one that is repeated", '{"x":1,"apdu":1,"apdu":1}', ("UnknownMember", "/x")),
        ("repeated-and-unknown", "a repeated member, and after it an unknown one", '{"apdu":1,"apdu":1,"x":1}', ("RepeatedMember", "/apdu")),
        ("unknown-twice", "an unknown member twice", '{"x":1,"x":1}', ("UnknownMember", "/x")),
        ("unread-twice", "a member that is not read, twice", '{"file":1,"file":1}', ("RepeatedMember", "/file")),
        ("member-and-value", "a value of another type, and after it an unknown member", '{"apdu":"Expired","value":1,"x":1}', ("UnknownMember", "/x")),
        ("member-and-profile", "a profile of another type, and after it an unknown member", '{"profile":1,"x":1}', ("UnknownMember", "/x")),
        ("member-and-apdu", "an unknown APDU, and after it an unknown member", '{"apdu":"x","x":1}', ("UnknownMember", "/x")),
        ("profile-and-apdu", "an APDU of another type, and such a profile", '{"apdu":1,"profile":1}', ("WrongType", "/profile")),
        ("profile-and-missing-apdu", "an unknown profile, and no APDU", '{"profile":""}', ("UnknownName", "/profile")),
        (
            "profile-and-left-out",
            "an APDU that profile 2 leaves out, of the module profile",
            '{"apdu":"Forward-Notification","profile":"module"}',
            ("OtherProfile", "/profile", TWO),
        ),
        ("apdu-and-missing-value", "an unknown APDU, and no value", '{"apdu":"x"}', ("UnknownName", "/apdu")),
        (
            "left-out-and-missing-value",
            "an APDU that profile 2 leaves out, and no value",
            '{"apdu":"Forward-Notification"}',
            ("LeftOut", "/apdu", TWO),
            ("MissingMember", "/value", MODULE),
        ),
        ("missing-apdu-and-value", "a value of another type, and no APDU", '{"value":1}', ("MissingMember", "/apdu")),
        ("apdu-and-value", "a value and an APDU of another type", '{"value":1,"apdu":1}', ("WrongType", "/apdu")),
        ("value-missing", "no value", '{"apdu":"Expired"}', ("MissingMember", "/value")),
        (
            "fault-and-too-long",
            "a normal form of an octet too many, and an unknown member",
            Runs([["{\"x\":1," + line[0][0][1:], 1], *line[1:]]),
            ("UnknownMember", "/x"),
        ),
        (
            "late-fault-and-too-long",
            "a text that passes the limit, and a later row of another type",
            Runs(late_fault(line)),
            ("WrongType", "/value/responder-id"),
        ),
        ("too-long-alone", "the same without a fault, and a member that is not read", Runs([[start, 1], *line[1:]]), ("NormalTooLong", "")),
    ]


def late_fault(line):
    """An EXPIRED with a long text of a row before a faulty one."""
    body = line_of("Expired", {**HEAD_VALUE, "responder-id": None, "requester-id": {"name-of-person-or-institution": {"name-of-person": {"general": "@"}}}})
    before, after = body.split("@")
    return [[before, 1], ["A", NORMAL_LIMIT], [after, 1]]


def of_objects():
    """The members of an object, and its rows."""
    misspelled = {name.replace("service-date-time", "service-date-tme"): value for name, value in HEAD_VALUE.items()}
    no_qualifier = {"transaction-group-qualifier": {"general": "G"}}
    left_out_twice = Object([*HEAD_VALUE.items(), ("expired-extensions", None), ("expired-extensions", None)])
    return [
        ("misspelled", "a mandatory row by a misspelled name", line_of("Expired", misspelled), ("UnknownMember", "/value/service-date-tme")),
        ("member-and-row", "each row of another type, and after them an unknown member", line_of("Expired", {**NULLS, "x": 1}), ("UnknownMember", "/value/x")),
        ("members-in-their-order", "two unknown members", line_of("Expired", {**HEAD_VALUE, "y": 1, "x": 1}), ("UnknownMember", "/value/y")),
        (
            "left-out-and-unknown",
            "a row that profile 2 leaves out, and after it an unknown member",
            line_of("Expired", {**HEAD_VALUE, "expired-extensions": None, "x": 1}),
            ("LeftOut", "/value/expired-extensions", TWO),
            ("UnknownMember", "/value/x", MODULE),
        ),
        (
            "unknown-and-left-out",
            "an unknown member, and after it a row that profile 2 leaves out",
            line_of("Expired", {"x": 1, "expired-extensions": None}),
            ("UnknownMember", "/value/x"),
        ),
        (
            "left-out-twice",
            "a row that profile 2 leaves out, twice",
            line_of("Expired", left_out_twice),
            ("LeftOut", "/value/expired-extensions", TWO),
            ("RepeatedMember", "/value/expired-extensions", MODULE),
        ),
        (
            "inner-member-and-outer",
            "an unknown member in the first row, and after it one in the object",
            line_of("Expired", {"transaction-id": {"x": 1}, "x": 1}),
            ("UnknownMember", "/value/x"),
        ),
        (
            "rows-in-the-order-of-the-tables",
            "each row of another type, from the last one on",
            line_of("Expired", dict(reversed(NULLS.items()))),
            ("WrongType", "/value/protocol-version-num"),
        ),
        (
            "row-and-missing-row",
            "a row of another type, and no later one",
            line_of("Expired", {"protocol-version-num": None}),
            ("WrongType", "/value/protocol-version-num"),
        ),
        (
            "missing-row-and-row",
            "no first row, and later ones of another type",
            line_of("Expired", {"transaction-id": None, "service-date-time": None}),
            ("MissingMember", "/value/protocol-version-num"),
        ),
        ("all-missing", "no row", line_of("Expired", {}), ("MissingMember", "/value/protocol-version-num")),
        (
            "deep-and-later-row",
            "a mandatory row missing in the second row, and no third one",
            line_of("Expired", {"protocol-version-num": 2, "transaction-id": no_qualifier}),
            ("MissingMember", "/value/transaction-id/transaction-qualifier"),
        ),
        (
            "optional-rows",
            "two optional rows of another type",
            line_of("Expired", {**HEAD_VALUE, "responder-id": None, "requester-id": None}),
            ("WrongType", "/value/requester-id"),
        ),
        (
            "default-and-missing-row",
            "a row with a default of an unknown name, and no mandatory row after it",
            line_of("ILL-Request", with_head({"transaction-type": "x", "item-id": {}})),
            ("UnknownName", "/value/transaction-type"),
        ),
        ("null-of-an-optional-row", "null in an optional row", line_of("Expired", {**HEAD_VALUE, "requester-id": None}), ("WrongType", "/value/requester-id")),
        (
            "null-of-a-default",
            "null in a row with a default",
            line_of("ILL-Request", with_head({**REQUEST_VALUE, "retry-flag": None})),
            ("WrongType", "/value/retry-flag"),
        ),
    ]


def of_choices_and_lists():
    place = "/value/transaction-id/transaction-group-qualifier"
    symbol = "/value/requester-id/person-or-institution-symbol"

    def with_symbol(value):
        return line_of("Expired", {**HEAD_VALUE, "requester-id": {"person-or-institution-symbol": value}})

    def with_delivery(value):
        return line_of("ILL-Request", with_head({**REQUEST_VALUE, "delivery-service": value}))

    return [
        ("string-of-two", "an ILL-String of two members, each of another type", with_group('{"general":1,"visible":1}'), ("NotOneMember", place)),
        ("string-of-one-and-unknown", "an ILL-String with an unknown member", with_group('{"general":1,"x":1}'), ("UnknownMember", f"{place}/x")),
        ("string-of-one-twice", "an ILL-String of one member twice", with_group('{"general":"G","general":"G"}'), ("RepeatedMember", f"{place}/general")),
        ("string-of-none", "an ILL-String of no member", with_group("{}"), ("NotOneMember", place)),
        (
            "choice-of-two",
            "a choice of two alternatives, each of another type",
            with_symbol({"person-symbol": 1, "institution-symbol": 1}),
            ("NotOneMember", symbol),
        ),
        ("choice-of-one-and-unknown", "a choice with an unknown member", with_symbol({"person-symbol": 1, "x": 1}), ("UnknownMember", f"{symbol}/x")),
        (
            "choice-of-one-twice",
            "a choice of one alternative twice",
            with_symbol(Object([("person-symbol", 1), ("person-symbol", 1)])),
            ("RepeatedMember", f"{symbol}/person-symbol"),
        ),
        (
            "choice-of-two-with-left-out",
            "a choice of two alternatives, of which profile 2 leaves out the second",
            with_delivery({"physical-delivery": 1, "electronic-delivery": 1}),
            ("LeftOut", "/value/delivery-service/electronic-delivery", TWO),
            ("NotOneMember", "/value/delivery-service", MODULE),
        ),
        ("items-in-order", "two items of unknown names, after a right one", requested(1, "x", "y"), ("UnknownName", "/value/ill-service-type/1")),
        ("eleventh-item", "an eleventh item of an unknown name", requested(*[1] * 10, "x"), ("UnknownName", "/value/ill-service-type/10")),
        (
            "item-and-later-row",
            "an item of an unknown name, and a later row of another type",
            line_of("ILL-Request", with_head({**REQUEST_VALUE, "requester-optional-messages": None, "ill-service-type": ["x"]})),
            ("UnknownName", "/value/ill-service-type/0"),
        ),
    ]


def of_leaves():
    item, place = "/value/ill-service-type/0", f"{EXTERNAL}/encoding/arbitrary"
    return [
        (
            "number-and-unknown",
            "a number that is not whole, and an unknown member beside it",
            requested({"number": Number("1.5"), "x": 1}),
            ("UnknownMember", f"{item}/x"),
        ),
        ("number-and-missing-name", "a number that is not whole, and no name", requested({"number": Number("1.5")}), ("NotWhole", f"{item}/number")),
        ("number-and-name", "a name and a number of another type", requested({"name": 1, "number": "1"}), ("WrongType", f"{item}/number")),
        ("missing-number-and-name", "a name of another type, and no number", requested({"name": 1}), ("MissingMember", f"{item}/number")),
        ("long-number-and-name", "a number that is too long, and a name", requested({"number": 2**63, "name": "x"}), ("NumberTooLong", f"{item}/number")),
        ("bits-and-octets", "bad octets and a bad number of bits", with_bits(("octets", "FF"), ("bits", -1)), ("NumberTooLong", f"{place}/bits", MODULE)),
        ("missing-bits-and-octets", "bad octets, and no number of bits", with_bits(("octets", "FF")), ("MissingMember", f"{place}/bits", MODULE)),
        (
            "bits-and-missing-octets",
            "a number of bits that is not whole, and no octets",
            with_bits(("bits", Number("1.5"))),
            ("NotWhole", f"{place}/bits", MODULE),
        ),
        (
            "octets-and-number-of-bits",
            "bad octets, and more bits than they have",
            with_bits(("bits", 99), ("octets", "FF")),
            ("BadHexadecimal", f"{place}/octets", MODULE),
        ),
        ("bits-and-unknown", "a bad number of bits, and an unknown member", with_bits(("bits", -1), ("x", 1)), ("UnknownMember", f"{place}/x", MODULE)),
        (
            "hexadecimal-and-element",
            "three digits of an element that is no DER",
            with_extension({"foreign": "308"}),
            ("BadHexadecimal", f"{ITEM}/foreign", MODULE),
        ),
        (
            "open-type-and-unknown",
            "octets that are no DER, and an unknown member",
            with_extension({"foreign": "", "x": 1}),
            ("UnknownMember", f"{ITEM}/x", MODULE),
        ),
    ]
