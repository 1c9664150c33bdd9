"""What documents, help texts, the man page and headers say of numbers, exit statuses, commands and options, compared with the code.

Each number is that of a constant in the code, each status that of a `match` there. docs.py runs this.
"""
import json
import re
import subprocess
import sys
from pathlib import Path

sys.path.insert(0, str(Path(__file__).resolve().parents[1]))

from model.schema import Schema
from model.tables import ALL_ROWS, NAMES, ROOTS, reached

ROOT = Path(__file__).resolve().parents[2]
HELP, TOPICS, COMMANDS, BUILD_HELP, ARGUMENT, LINE = (f"crates/ill_args/src/{name}.rt" for name in ("help", "topics", "commands", "build_help", "argument", "program"))
MAN, GUIDE, DEFINITIONS, PERFORMANCE, SECURITY = "man/illcanon.1", "docs/GUIDE.md", "docs/DEFINITIONS.md", "docs/PERFORMANCE.md", "SECURITY.md"
HEADER, RESULTS, REFUSAL, WALK = "bindings/c/illcanon.h", "docs/results.schema.json", "crates/ill_schema/src/refusal.rt", "crates/ill_walk/src/refusal.rt"
WORDS = {"two": 2, "three": 3, "four": 4, "five": 5, "six": 6, "seven": 7, "eight": 8, "nine": 9, "ten": 10, "eleven": 11, "twelve": 12}

# Each limit: the file and the pattern of its constant. A second place has to have the same number.
LIMITS = {
    "octets": [("crates/ill_schema/src/size.rt", r"pub const LIMIT: u32 = ([\d_]+);")],
    "messages": [
        ("crates/ill_normal/src/messages.rt", r"pub const MAX_MESSAGES: u32 = ([\d_]+);"),
        (ARGUMENT, r"ValueParser::unsigned\(1, ([\d_]+)\)"),
    ],
    "open": [("crates/ill_grammar/src/frames.rt", r"pub const MAX_DEPTH: usize = ([\d_]+);"), ("crates/ill_walk/src/unjudged.rt", r"const MAX_OPEN: usize = ([\d_]+);")],
    "levels": [("crates/ber_core/specs/Foreign.antt", r"^foreign_levels = (\d+)"), ("crates/ill_text/src/foreign.rt", r"const LEVELS: u8 = (\d+);")],
    "hex": [("crates/ill_inputs/src/hexadecimal.rt", r"pub const MAX_HEX_TEXT: usize = ([\d_]+);")],
    "line": [("crates/ill_build/src/line.rt", r"pub const LINE_LIMIT: usize = ([\d_]+);"), ("crates/ill_build/specs/Line.antt", r"^line_limit = ([\d_]+)")],
    "integer": [("crates/ber_leaf/src/integer.rt", r"octets\.len\(\) > (\d+)\)\.then_some\(LeafFault::IntegerTooLong\)")],
    "tag": [("crates/ber_core/src/id.rt", r"pub const MAX_NUMBER: u32 = ([\d_]+);")],
}
# How a limit is said: its name, the pattern of the number, and what is added to the limit there.
SAYINGS = [
    ("messages", r"messages up to ([\d,]*\d)", 0),
    ("messages", r"(?:at most|more than|up to) ([\d,]*\d) messages", 0),
    ("levels", r"(\w+) levels\b", 0),
    ("levels", r"\blevel (\w+) of a foreign tree", 1),
    ("open", r"(\w+) (?:open elements|elements (?:(?:are|would be) )?open)\b", 0),
    ("open", r"would be at depth (\w+)", 1),
    ("open", r"(?:nested to|, at) depth (\w+)", 0),
]
# Numbers of seven digits and more that are no limits of ours: the greatest ones of 32 and of 64 bits.
OTHERS = {4_294_967_295, 18_446_744_073_709_551_615}
# What says limits, and how often each at least. A text may say each number of seven digits and more only as a limit, or one of OTHERS.
SAID = {
    "README.md": {"octets": 1, "open": 1, "levels": 1, "integer": 1, "tag number": 1},
    DEFINITIONS: {"open": 2, "levels": 2, "integer": 1, "tag number": 1, "tag": 1},
    GUIDE: {"messages": 2, "hex": 1},
    MAN: {"messages": 2, "hex": 1, "line": 1},
    BUILD_HELP: {"octets": 1, "line": 2, "levels": 1, "tag number": 1},
    TOPICS: {"octets": 3, "messages": 1, "hex": 1, "open": 2, "levels": 2, "integer": 2, "tag number": 2},
    REFUSAL: {"octets": 2, "open": 2, "integer": 2, "tag number": 2},
    WALK: {"levels": 1},
    HEADER: {"open": 1, "levels": 1, "integer": 1, "tag number": 1},
    "docs/PROVED.md": {"octets": 1, "open": 1, "messages": 1},
    "docs/ARCHITECTURE.md": {"octets": 1},
    SECURITY: {"octets": 1, "messages": 1},
}
# What says numbers, and is not of the documents that docs.py names.
TEXTS = [HELP, TOPICS, COMMANDS, BUILD_HELP, ARGUMENT, MAN, REFUSAL, WALK, HEADER]
# What says what was measured or what was so once.
NOT_COMPARED = {PERFORMANCE, "CHANGELOG.md", "vectors/README.md"}
# What names the kit or the gate, too, and is not of the documents that docs.py names.
OTHER_DOCUMENTS = ["bindings/web/README.md"]

BUILT_RESULTS = "docs/built.schema.json"

# How each help topic begins.
BEGINNINGS = {"causes": "Why a message is refused.", "profile": "A profile is what is read of ISO 10161-1."}
# What both the help and the man page say of an option, and of no other. A new option gets a line here.
OPTIONS = {
    "hex": r"input is hexadecimal text\b",
    "profile": r"Reads the messages (of all inputs )?in (this|the) profile",
    "keep-going": r"goes on with the next one, where its end is known",
    "refused": r"rites the octets of (each )?refused messages? ",
    "max-refused": r"[Ss]tops after N refused messages of all files",
    "summary": r"rites a line to standard error: how many|Writes a line to standard error at the end: how many",
    "lines": r"Each line of the input is a message in hexadecimal, and each line of the output its result",
    "whole": r"Replaces OUT only if every message of every input was good, and otherwise leaves it as it was",
    "output": r"Writes the normal forms of .*\bto OUT\b",
    "files-from": r"[Nn]ames of files (are read )?from LIST, each ended by a NUL",
    "with-filename": r"Names the file in each line, .*even if there is one file",
    "json": r"Writes a line of JSON for each message",
    "write-defaults": r"Writes each default, too|each member that has its default is in the message",
    "html": r"Writes one HTML document for all files",
    "message": r"Writes message N (of each file )?alone",
    "help": r"^Prints? help",
    "version": r"^Prints? (the )?version",
}
# The words of the help of `build`, which reads lines.
BUILD_OPTIONS = {
    **OPTIONS,
    "hex": r"Writes each message as a line of hexadecimal digits",
    "keep-going": r"Reports a line that is refused, and goes on with the next one",
    "refused": r"Writes the lines that are refused to FILE",
    "max-refused": r"Stops after N refused lines of all files",
    "lines": r"Writes a line for each line: the message in hexadecimal, or why the line is refused",
    "json": r"Writes a line of JSON for each line: the message in hexadecimal, or why the line is refused",
    "whole": r"Replaces OUT only if every line of every input was good, and otherwise leaves it as it was",
}
# A line in which the help of `build` changes a member to show a cause.
BUILT = """{"apdu":"ILL-Request","value":{"protocol-version-num":2,"transaction-id":{"transaction-group-qualifier":{"general":"G"},\
"transaction-qualifier":{"general":"Q"}},"service-date-time":{"date-time-of-this-service":{"date":"20240229"}},"transaction-type":1}}"""
# Words in a list of statuses, each with what has this status in the code: a function of error.rt and the arm of its `match`.
MEANINGS = [
    (r"\bdone\b|\b(?<!not )in normal form|\ball are normal\b|\bsame\b(?! file)", "status_of", "Ok(Verdict::Good)"),
    (r"\bnot normal\b|\bnot in normal form\b|\bdifferent\b", "status_of", "Ok(Verdict::NotGood)"),
    (r"\brefused\b|\bnot one message\b", "run_status", "RunFault::Refused"),
    (r"\bmore than [\d,]+", "run_status", "RunFault::TooManyMessages"),
    (r"\bhexadecimal text is invalid\b", "run_status", "RunFault::BadHex(_)"),
    (r"\bthere is no message\b", "status_of", "ProgramError::NoMessage(_)"),
    (r"\busage\b|\bcommand line\b", "status_of", "ProgramError::Line(_)"),
    (r"\bsame file\b", "status_of", "ProgramError::SameFile"),
    (r"\bmemory\b", "run_status", "RunFault::OutOfMemory"),
    (r"\bfiles or pipes\b|\bfile or pipe\b", "run_status", "RunFault::ReadFault"),
    (r"\bfiles or pipes\b|\bopened\b|\breplaced\b", "status_of", "ProgramError::CannotOpen"),
]
faults = []


def fault(path, what):
    faults.append(f"{path}: {what}")


def read(path):
    return (ROOT / path).read_text(encoding="utf-8")


def limits():
    """Each limit by its name."""
    found = {}
    for name, places in LIMITS.items():
        for path, pattern in places:
            match = re.search(pattern, read(path), re.M)
            if not match:
                fault(path, f"no constant of the limit of {name}: {pattern}")
                continue
            number = int(match[1].replace("_", ""))
            if found.setdefault(name, number) != number:
                fault(path, f"the limit of {name} is {number}, and elsewhere {found[name]}")
    # as many octets of seven bits each as hold the greatest tag number
    found["tag number"] = -(-found["tag"].bit_length() // 7)
    return found


def value(text):
    """The number that a word or digits are, or None."""
    if text in WORDS:
        return WORDS[text]
    return int(text.replace(",", "")) if re.fullmatch(r"[\d,]*\d", text) else None


def numbers_in(text):
    """What a text says of limits: the name of each with the number that is said, less what is added there."""
    # Sentences, cells of tables and arms of a `match` are apart; a line of roff goes on.
    for part in re.split(r"[.;](?:\s|$)|\n\s*\n|\||\n\.It|\n[-*] |\n\w+ {2,}|=> |\*/", text):
        part = re.sub(r"\n\.\w+ ?|\s+|\\\n", " ", part)
        for name, pattern, more in SAYINGS:
            for match in re.finditer(pattern, part):
                number = value(match[1])
                if number is not None:
                    yield name, number - more
        for match in re.finditer(r"\b(\w+) octets", part):
            before = part[: match.start()]
            nouns = re.findall(r"\b(?:tag )?[Nn]umbers?\b|\bINTEGER\b|\binteger\b", before)
            if match[1] in WORDS and nouns and re.search(r"\b(more than|at most|up to) $", before):
                is_tag = nouns[-1].startswith("tag") or nouns[-1] == "number" and "identifier" in before
                yield "tag number" if is_tag else "integer", WORDS[match[1]]
        for match in re.finditer(r"\b\d{1,3}(?:,\d{3}){2,}\b", part):
            number, before, after = value(match[0]), part[: match.start()], part[match.end() :]
            if number in OTHERS:
                continue
            if after.startswith(" messages") or re.search(r"messages up to $|there are more than $|number from 1 to $", before):
                yield "messages", number
            elif re.search(r"\bline has (at most|more than) $", before):
                yield "line", number
            elif re.search(r"tag numbers of at most $", before):
                yield "tag", number
            elif re.search(r"hex|--lines|text", before):
                yield "hex", number
            else:
                yield "octets", number


def check_limits(documents):
    """Each number in a text is the limit, and the texts that have to say limits do."""
    known = limits()
    for path in dict.fromkeys([*documents, *TEXTS]):
        if path in NOT_COMPARED:
            continue
        found = list(numbers_in(read(path)))
        for name, number in found:
            if number != known[name]:
                fault(path, f"says {number} for the limit of {name}, which is {known[name]}")
        for name, count in SAID.get(path, {}).items():
            times = sum(said == name for said, _ in found)
            if times < count:
                fault(path, f"says the limit of {name} {times} times, and {count} are wanted")
    define = re.search(r"#define ILLCANON_LIMIT (\d+)", read(HEADER))
    if not define or int(define[1]) != known["octets"]:
        fault(HEADER, f"ILLCANON_LIMIT is not {known['octets']}")
    return known


def check_counts():
    """The nodes and rows of the module profile, as DEFINITIONS says."""
    nodes = reached(ROOTS["module"])
    wanted = f"{len(nodes)} nodes with {sum(len(ALL_ROWS.get(node, [])) for node in nodes)} rows"
    if wanted not in read(DEFINITIONS):
        fault(DEFINITIONS, f"the module profile has {wanted}")
    causes = re.findall(r'Cause::(\w+)(?:\(_\))? => "', read(REFUSAL).partition("fn text(")[2].partition("fn clause(")[0])
    table = read(DEFINITIONS).partition("## The causes")[2]
    listed = [name for cell in re.findall(r"^([A-Z][\w, ]*) \|", table, re.M) for name in cell.split(", ") if name != "Cause"]
    if sorted(listed) != sorted(causes):
        fault(DEFINITIONS, f"the table of causes has {sorted(set(listed) ^ set(causes))} too much or too little")


def check_gate(documents):
    """PERFORMANCE says which kit the gate ran with and how many minutes it took; what else says it agrees."""
    numbers = re.search(r"`rt ci` from nothing with `(rattle-kit-\w+)`[^.]* ([\d.]+) by the clock on four cores", read(PERFORMANCE))
    if not numbers:
        fault(PERFORMANCE, "doesn't say with which kit `rt ci` ran, and how long by the clock on four cores")
        return
    kit, minutes = numbers[1], round(float(numbers[2]))
    said = {"kit": 0, "minutes": 0}
    for path in [*documents, *OTHER_DOCUMENTS]:
        text = " ".join(read(path).split())
        for found in re.findall(r"rattle-kit-\w+", text):
            said["kit"] += path == "README.md"
            if found != kit:
                fault(path, f"names {found}, and {PERFORMANCE} has {kit}")
        for found in re.findall(r"`rt ci`[^.]* in (\d+) minutes", text):
            said["minutes"] += path == "README.md"
            if int(found) != minutes:
                fault(path, f"says that `rt ci` takes {found} minutes, and by {PERFORMANCE} it takes {minutes}")
    for what, count in said.items():
        if count != 1:
            fault("README.md", f"says the {what} of the gate {count} times, and not once")


def check_said(path, pattern, wanted):
    """A document says these numbers, once."""
    found = re.findall(pattern, " ".join(read(path).split()))
    if [[value(text) for text in ([one] if isinstance(one, str) else one)] for one in found] != [wanted]:
        fault(path, f"has to say {wanted} once, where it says {found}: {pattern}")


def check_profile_member():
    """The help, the man page and the header say that a line of the module profile has the member `profile`."""
    for path in COMMANDS, MAN, HEADER:
        text = re.sub(r"[\s*]+", " ", read(path))
        if not re.search(r"A line of the module profile says so|In the module profile a line of \.Cm show says so", text):
            fault(path, "doesn't say that a line of the module profile says so")


def check_edits_and_laws():
    """DECISIONS counts the edits of the gate, PROVED has the numbers of the laws on refusals, and README says that the gate tries edits."""
    in_gate = [path for path in (ROOT / "tests/edits").glob("*/*.edit") if not re.search(r"^slow: ", path.read_text(encoding="utf-8"), re.M)]
    check_said("docs/DECISIONS.md", r"so it tries (\w+); `tests/edits/run.py` proves one function for each of (\w+)\.", [len(list(ROOT.glob("crates/*/must-fail/*.edit"))), len(in_gate)])
    laws, outcome = "crates/ill_refusals/src/laws.rt", "crates/ill_refusals/specs/Outcome.antt"
    law = {
        "causes": (laws, r"Refuses profile_two s f → cause_number f\.cause ≤ (\d+)", 0),
        "open": (outcome, r"^FewAreOpen p = .* length path ≤ (\d+)$", 0),
        "deep": (outcome, r"^ComponentsAreShallow p = [^=]* length path ≤ (\d+)$", 1),
    }
    numbers = {}
    for name, (path, pattern, more) in law.items():
        found = re.search(pattern, read(path), re.M)
        if not found:
            fault(path, f"no law has this form: {pattern}")
            return
        numbers[name] = int(found[1]) + more
    check_said("docs/PROVED.md", r"Profile 2 has the causes 1 to (\w+),", [numbers["causes"]])
    check_said("docs/PROVED.md", r"At most (\w+) elements are open, those of the tables' types at most (\w+) deep", [numbers["open"], numbers["deep"]])
    said = re.search(r"`make check` is the test command\. It runs `rt ci`, [^.]*, tries edits, and runs the scripts", " ".join(read("README.md").split()))
    if bool(said) != ("tests/edits/run.py" in read("tests/check.sh")):
        fault("README.md", "says of `make check` that it tries edits where it doesn't, or not where it does")


def ends_of_help():
    """The commands, by the constant of the end of their help."""
    _, _, named = read(COMMANDS).partition("pub fn name")
    words, _, more = named.partition("pub fn about")
    word_of = dict(re.findall(r'(Verb::\S+) => "(\w+)",', words))
    ends = re.findall(r"(Verb::\S+) => ([\w:]+),", more.partition("pub fn after_help")[2].partition("pub fn arguments")[0])
    return {end: word_of[verb] for verb, end in ends}


def help_texts():
    """The end of the help of the program, and of each command."""
    ends = ends_of_help()
    texts = {**constants(COMMANDS), "build_help::HELP": constants(BUILD_HELP)["HELP"]}
    return {"PROGRAM": constants(HELP)["PROGRAM"], **{name: text for name, text in texts.items() if name in ends}}


def constants(path):
    """The texts of a file of help. Some have what `with_refusals` says between two texts."""
    source, string = read(path), r'"(?:\\\n)?((?:[^"\\]|\\.)*)"'
    said = re.search(rf"concat!\(\s*\$before,\s*{string},\s*\$after\s*\)", source)
    found = dict(re.findall(rf"^(?:pub )?const (\w+): &str =\s*{string};", source, re.M))
    for name, before, after in re.findall(rf"^const (\w+): &str = with_refusals!\(\s*{string},\s*{string}\s*\);", source, re.M):
        found[name] = before + said[1] + after
    return {name: text.replace('\\"', '"').replace("\\\\", "\\") for name, text in found.items()}


def statuses_of_code():
    """The status of each arm of the functions of error.rt, and the statuses of several files, the one that counts most first."""
    source = read("crates/ill_files/src/error.rt")
    arms = {}
    for function in ("status_of", "run_status"):
        body = re.search(rf"fn {function}\(.*?\n}}", source, re.S)[0].partition("match ")[2].partition("{")[2]
        for pattern, status in re.findall(r"(.*?)=>\s*(\d)", body, re.S):
            for arm in re.findall(r"Ok\(Verdict::\w+\)|(?:ProgramError|RunFault)::\w+(?:\(_\))?", pattern):
                arms[function, arm] = int(status)
    combined = re.search(r"fn combined_status\(.*?\n}", source, re.S)[0]
    return arms, [int(status) for status in re.findall(r"next == (\d)", combined)]


def status_lists():
    """Each list of statuses: its place, the text of each status, and whether that of several files has to follow."""
    for name, text in help_texts().items():
        found = re.search(r"^Status: (.*)\Z", text, re.M | re.S)
        said = " ".join(found[1].split()) if found else ""
        said, _, several = said.partition(" Of several files: ")
        yield f"{COMMANDS} {name}", dict(re.findall(r"(?:^|; )(\d) (.*?)(?=; \d |\.?$)", said)), several, name not in ("PROGRAM", "SAME")
    man = re.sub(r"\n\.(?!It|Pp|El)\w+ ?", " ", read(MAN).partition(".Sh EXIT STATUS")[2].partition(".Sh")[0])
    yield MAN, {status: " ".join(text.split()) for status, text in re.findall(r"^\.It (\d)\n(.*?)(?=\n\.)", man, re.M | re.S)}, man.partition("Of several files")[2], True
    guide = read(GUIDE)
    yield GUIDE, dict(re.findall(r"^(\d) \| (.*)$", guide.partition("\nStatus | ")[2].partition("\n\n")[0], re.M)), guide.partition("\nOf several files")[2].partition("\n")[0], True


def check_statuses():
    arms, order = statuses_of_code()
    most, less = order
    wanted = f"{most} if one gave {most}, else {less} if one gave {less}"
    for place, said, several, is_wanted in status_lists():
        if sorted(said) != ["0", "1", "2", "3"]:
            fault(place, f"a list of the statuses {sorted(said)}")
            continue
        found = set()
        for pattern, function, arm in MEANINGS:
            if (function, arm) not in arms:
                fault("crates/ill_files/src/error.rt", f"{function} has no {arm}")
                continue
            for status, text in said.items():
                if re.search(pattern, text):
                    found.add(arm)
                    if int(status) != arms[function, arm]:
                        fault(place, f"{re.search(pattern, text)[0]!r} has status {status}, and {arm} has {arms[function, arm]}")
        for arm in ("Ok(Verdict::Good)", "ProgramError::Line(_)", "RunFault::OutOfMemory", "RunFault::ReadFault", "ProgramError::CannotOpen"):
            if arm not in found:
                fault(place, f"nothing says which status {arm} has")
        if not found & {"RunFault::Refused"}:
            fault(place, "nothing says which status a refused message has")
        if is_wanted and wanted not in " ".join(several.split()):
            fault(place, f"of several files the status is {wanted}")


def check_examples():
    """Each example in the help of a command is of this command."""
    ends, texts = ends_of_help(), help_texts()
    for name, word in ends.items():
        text = texts[name]
        lines = re.search(r"^Example: (.*\n(?: {9}.*\n)*)", text, re.M)
        if not lines:
            fault(COMMANDS, f"{name} has no example")
            continue
        for line in lines[1].splitlines():
            if not re.search(rf"\billcanon {word}\b", line):
                fault(COMMANDS, f"{name} has an example of another command: {line.strip()}")


def check_wiring():
    """Each command has its own end of the help, and each topic its own text, by the source alone."""
    for name, word in ends_of_help().items():
        if name not in (word.upper(), f"{word}_help::HELP"):
            fault(COMMANDS, f"the help of {word} has the end {name}")
    topics = dict(re.findall(r'topic\(alloc, "(\w+)", topics::(\w+)\)', read(LINE)))
    if topics != {word: word.upper() for word in BEGINNINGS}:
        fault(LINE, f"the topics are {topics}")
    texts = constants(TOPICS)
    for word, beginning in BEGINNINGS.items():
        if not texts.get(word.upper(), "").startswith(beginning):
            fault(TOPICS, f"{word.upper()} doesn't begin with: {beginning}")


def man_options():
    """Each long option of the man page with its text."""
    found = {}
    for item in re.split(r"^\.It (?=Fl)", read(MAN).partition(".Sh OPTIONS")[2].partition(".Sh FILES")[0], flags=re.M)[1:]:
        head, _, text = item.partition("\n")
        name = re.findall(r"-([\w-]{2,})", head)[0]
        found[name] = re.sub(r"^\.(\w\w) ?", "", text, flags=re.M)
    return found


def check_option(place, name, text, options=OPTIONS):
    """The text of an option has the words of this option, and of no other."""
    text = " ".join(text.split()).replace(" ,", ",")
    found = {other for other, pattern in options.items() if re.search(pattern, text)}
    if found != {name}:
        fault(place, f"--{name} has the words of {sorted(found)}: {text!r}")


def check_max_refused():
    """The man page has the greatest N of `--max-refused`, as the command line has it, and the status of work that it ended."""
    text = " ".join(man_options().get("max-refused", "").split())
    number = re.search(r'Number\("max-refused",', read(COMMANDS)) and re.search(r"ValueParser::unsigned\(1, ([\d_]+)\)", read(ARGUMENT))
    status = re.search(r"ProgramError::RefusedEnough\(_\)\) => (\d)", read("crates/ill_files/src/error.rt"))
    found = re.search(r"at most ([\d,]+) messages, with a line on standard error and status (\d)\.", text)
    if not (number and status and found and found.groups() == (f"{int(number[1].replace('_', '')):,}", status[1])):
        fault(MAN, f"--max-refused has another number or status than the sources: {text!r}")


def check_names_of_options():
    """Each option that a document names is one of the program, but for those of other commands."""
    for path, others in {"README.md": set(), SECURITY: set(), GUIDE: {"pipe"}, "docs/TESTING.md": {"minutes"}, "docs/DECISIONS.md": set(), "docs/PROVED.md": set()}.items():
        for name in re.findall(r"`(?:illcanon )?(?:[a-z]+ )*--([a-z][a-z-]*)", read(path)):
            if name not in OPTIONS and name not in others:
                fault(path, f"names --{name}, which is no option")


def check_options(help_of, commands):
    """Each option has its own words in the man page, and in the help of each command."""
    man = man_options()
    for name, text in man.items():
        check_option(MAN, name, text)
    if set(man) != set(OPTIONS):
        fault(MAN, f"the options {sorted(set(man) ^ set(OPTIONS))} are too many or too few")
    for command in commands:
        part = help_of(command, "--help").partition("\nOptions:\n")[2].partition("\n\n")[0]
        options = re.findall(r"^ +(?:-\w, )? *--([\w-]+)(?: <\w+>)? +(.*)$", part, re.M)
        for name, text in options:
            check_option(f"the help of {command}", name, text, BUILD_OPTIONS if command == "build" else OPTIONS)
        if len(options) < 3:
            fault(HELP, f"the help of {command} has the options {options}")


def check_program(program):
    """What the program prints as help is what the sources have, each at its own command."""

    def help_of(*words):
        return subprocess.run([program, *words], capture_output=True, text=True, check=True).stdout

    ends, texts, topics = ends_of_help(), help_texts(), constants(TOPICS)
    if not help_of("--help").endswith(texts["PROGRAM"] + "\n"):
        fault(HELP, "the program's help has another end: is it older than the sources?")
    for name, word in ends.items():
        for words in (word, "--help"), ("help", word):
            if not help_of(*words).endswith("\n" + texts[name] + "\n"):
                fault(HELP, f"`illcanon {' '.join(words)}` has another end than {name}: is the program older than the sources?")
    for word in BEGINNINGS:
        if help_of("help", word).strip() != topics[word.upper()].strip():
            fault(TOPICS, f"`illcanon help {word}` prints something else than {word.upper()}: is the program older than the sources?")
    check_options(help_of, ends.values())
    check_build_causes(program, texts["build_help::HELP"])


def check_build_causes(program, text):
    """The help of `build` has each cause of a refused line once, and its example has this cause. Those of the module profile are parts of a value."""
    causes = re.findall(r'BuildCause::(\w+) => "\1"', read("crates/ill_build/src/cause.rt"))
    said = re.findall(r"^([A-Z]\w+) {2,}\S.*(?:\n {16}.*)*(?:\n {4}(\S.*))?$", text, re.M)
    if sorted(name for name, _ in said) != sorted(causes) or not causes:
        fault(BUILD_HELP, f"the causes {sorted(name for name, _ in said)} aren't {sorted(causes)}")
    for cause, example in said:
        member = re.match(r'("[\w-]+":)', example)
        if member:
            example, count = re.subn(member[1] + r"(\{[^{}]*\}|\w+)", example.replace("\\", "\\\\"), BUILT)
            if count != 1:
                fault(BUILD_HELP, f"{cause}: the line has {count} members {member[1]}")
        if member or example.startswith('{"') and "bits" not in example:
            done = subprocess.run([program, "build", "--lines", "-", "-"], input=example + "\n", capture_output=True, text=True)
            if not done.stdout.endswith(f": {cause}\n"):
                fault(BUILD_HELP, f"the example of {cause} is {done.stdout.strip()!r}")


def objects_in(schema, at):
    """Each schema of an object with properties, with its place."""
    if isinstance(schema, dict):
        if "properties" in schema:
            yield at, schema
        for name, inner in schema.items():
            yield from objects_in(inner, f"{at}.{name}")
    elif isinstance(schema, list):
        for number, inner in enumerate(schema):
            yield from objects_in(inner, f"{at}[{number}]")


# Lines that the schema of results has to accept. Each with one property more, or without one that is wanted, is refused.
RESULT_LINES = [
    {"file": "a", "number": 1, "offset": 0, "octets": 33, "apdu": "Expired", "normal": True, "digest": "0" * 64},
    {"file": "a", "number": 1, "offset": 0, "octets": 2, "apdu": "Expired", "refused": {
        "cause": "Missing", "offset": 2, "kind": "invalid", "clause": "X.690, 8.9.3 and 8.14, with the types of ISO 10161-1", "part": "Expired.protocol-version-num", "path": "Expired", "found": "the end of the element", "due": ["[0] protocol-version-num"]}},
    {"summary": {"files": 1, "messages": 3, "normal": 1, "not_normal": 0, "refused": 2, "not_read": 1, "invalid": 1, "no_message": 0, "octets": 70, "not_opened": 0, "left": 0}},
]
OPTIONAL = {"file", "digest", "part", "path", "found", "due"}


def variants(line):
    """The line with a property more, and without each one, at each object in it: what was changed, and whether the line is still right."""
    yield "one property more", {**line, "more": 1}, False
    for name, entry in line.items():
        rest = {other: said for other, said in line.items() if other != name}
        # Of a refused message the octets and the APDU may be unknown.
        yield f"without {name}", rest, name in OPTIONAL or "refused" in line and name in ("octets", "apdu") and isinstance(line["refused"], dict)
        if isinstance(entry, dict):
            for what, inner, is_right in variants(entry):
                yield f"{name}: {what}", {**line, name: inner}, is_right


def check_results_schema(known):
    made = json.loads(read(RESULTS))
    schema = Schema(made)
    for at, entry in objects_in(made, "$"):
        if entry.get("additionalProperties") is not False:
            fault(RESULTS, f"{at} allows further properties")
        if not set(entry.get("required", [])) <= set(entry["properties"]):
            fault(RESULTS, f"{at} wants properties that it doesn't have")
    for line in RESULT_LINES:
        if schema.fault(line):
            fault(RESULTS, f"refuses {json.dumps(line)}: {schema.fault(line)}")
        for what, changed, is_right in variants(line):
            if (schema.fault(changed) is None) != is_right:
                fault(RESULTS, f"{'refuses' if is_right else 'accepts'} a line, {what}: {json.dumps(changed)}")
    definitions = made["$defs"]
    refused = definitions["refused"]["properties"]["refused"]["properties"]
    causes = re.findall(r'Cause::(\w+)(?:\(_\))? => "', read(REFUSAL).partition("fn text(")[2].partition("fn clause(")[0])
    for place, found, wanted in [
        ("number", definitions["number"].get("maximum"), known["messages"]),
        ("octets", definitions["accepted"]["properties"]["octets"].get("maximum"), known["octets"]),
        ("refused.offset", refused["offset"].get("maximum"), known["octets"]),
        ("cause", sorted(refused["cause"]["enum"]), sorted(causes)),
        ("apdu", sorted(definitions["apdu"]["enum"]), sorted(NAMES[ROOTS["module"]][1])),
    ]:
        if found != wanted:
            fault(RESULTS, f"{place} has {found}, and not {wanted}")


def check_built_schema():
    """The schema of the results of `build --json` has the APDUs and the causes of the sources."""
    definitions = json.loads(read(BUILT_RESULTS))["$defs"]
    causes = re.findall(r"^    ([A-Z]\w+),$", read("crates/ill_build/src/cause.rt").partition("pub enum BuildCause {")[2].partition("\n}")[0], re.M)
    for place, found, wanted in [
        ("cause", definitions["refused"]["properties"]["refused"]["properties"]["cause"]["enum"], causes),
        ("apdu", sorted(definitions["built"]["properties"]["apdu"]["enum"]), sorted(NAMES[ROOTS["module"]][1])),
    ]:
        if found != wanted:
            fault(BUILT_RESULTS, f"{place} has {found}, and not {wanted}")


def check_crates():
    """Compares the crates that ARCHITECTURE names with the directories in crates/."""
    named = set(re.findall(r"`((?:ber|der|example|ill|oid|test)_\w+)`", read("docs/ARCHITECTURE.md")))
    crates = {path.name for path in (ROOT / "crates").iterdir() if "_" in path.name and (path / "src").is_dir()}
    for name in sorted(named - crates):
        fault("docs/ARCHITECTURE.md", f"names {name}, which is no crate")
    for name in sorted(crates - named):
        fault("docs/ARCHITECTURE.md", f"doesn't name the crate {name}")


def check(documents, program):
    """Compares all, and returns what is wrong, a line each."""
    known = check_limits(documents)
    check_counts()
    check_gate(documents)
    check_crates()
    check_edits_and_laws()
    check_profile_member()
    check_statuses()
    check_examples()
    check_wiring()
    check_max_refused()
    check_names_of_options()
    check_results_schema(known)
    check_built_schema()
    if program.exists():
        check_program(program)
    return faults
