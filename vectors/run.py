#!/usr/bin/env python3
"""Runs a program over the test vectors, and prints a table of the rules that it breaks.

Usage: run.py [OPTION..] COMMAND..
       run.py [OPTION..] --adapter illcanon|library|yaz|erlang

COMMAND is run once for each test vector, with one more word: the path of a file with the octets. Status 0: they are one message, and standard
output has its normal form. Status 1: they aren't, and the last line of standard error is CAUSE OFFSET PART, or less of it, or Refused where the
program doesn't say why. Anything else: it broke.

  --decisions     compare statuses alone, whatever the outputs are
  --any-spelling  standard output may have any spelling of the APDU
  --streams       run over streams.json, too: standard output has the normal form of each message before the one that is refused
  --lines         run over json.json alone: the file has a line of JSON, standard output has the octets of the message that is built, and the last
                  line of standard error is CAUSE POINTER, the pointer as a JSON string, or less of it. Of the adapters illcanon and library
                  build messages
  --all           print each rule, not only those that are broken
  --vectors       print each test vector that differs
  --only NAME     run over NAME.json alone
  --profile NAME  run over the test vectors of a profile: 2, the default, or module; those that both profiles have belong to each
"""
import argparse
import ctypes
import json
import re
import subprocess
import sys
import tempfile
from collections import Counter, namedtuple
from pathlib import Path

FOLDER = Path(__file__).resolve().parent
sys.path[:0] = [str(FOLDER), str(FOLDER.parent / "tests"), str(FOLDER.parent / "tests/program")]

from peers import Erlang, build_yaz

SECONDS, WIDTH = 120, 80
WRONG = ["refused", "other", "accepted", "fault", "broke"]
MEANINGS = {
    "right": "as expected",
    "refused": "valid, and refused",
    "other": "valid, and accepted with another output",
    "accepted": "to be refused, and accepted",
    "fault": "refused with another cause, offset or part",
    "broke": "neither accepted nor refused, or no end in time",
}
# what a program says of octets: its status, what it wrote, cause, offset and part of the fault (None: it doesn't say), and the text of the value;
# of the fault of a line the cause and the pointer
Answer = namedtuple("Answer", "status output fault shown", defaults=[None, None])
UNSAID = None, None, None


def run(*words):
    try:
        return subprocess.run(words, capture_output=True, timeout=SECONDS)
    except subprocess.TimeoutExpired:
        return subprocess.CompletedProcess(words, -1, b"", b"")


class Command:
    """Any program that is called as the usage says."""

    def __init__(self, words):
        self.words = words

    def message(self, path):
        done = run(*self.words, path)
        return Answer(done.returncode, done.stdout, self.fault((done.stderr.splitlines() or [b""])[-1].decode("latin-1")))

    def fault(self, line):
        said = re.fullmatch(r"([A-Z][A-Za-z]+)(?: (\d+)(?: (.+))?)?", line)
        if line == "Refused" or not said:
            return UNSAID if said else None
        return said[1], said[2] and int(said[2]), said[3]

    stream = message

    def lines(self, lines):
        with tempfile.TemporaryDirectory() as name:
            path = Path(name, "line")
            for octets in lines:
                path.write_bytes(octets)
                done = run(*self.words, path)
                yield Answer(done.returncode, done.stdout, line_fault((done.stderr.splitlines() or [b""])[-1].decode("utf-8", "replace")))


def line_fault(said):
    """The cause and the pointer that a command says of a line: CAUSE POINTER, CAUSE or Refused; None where it says something else."""
    cause, _, pointer = said.partition(" ")
    if cause == "Refused":
        return None, None
    if not re.fullmatch("[A-Z][A-Za-z]+", cause):
        return None
    try:
        return cause, json.loads(pointer) if pointer[:1] == '"' else pointer or None
    except ValueError:
        return None


class Illcanon:
    """The program of this repository: `same` reads one whole message, `canonicalise` a stream, and `build` lines."""

    def __init__(self, profile):
        from model.tables import PROGRAM

        self.program, self.profile = PROGRAM, [] if profile == "2" else ["--profile", profile]

    def run(self, command, *paths):
        return run(self.program, command, *self.profile, *paths)

    def message(self, path):
        done = self.run("same", path, path)
        if done.returncode:
            return Answer(done.returncode, b"", self.fault(done.stderr))
        return self.stream(path)._replace(shown=self.run("show", path).stdout.decode())

    def stream(self, path):
        done = self.run("canonicalise", path, "-")
        return Answer(done.returncode, done.stdout, self.fault(done.stderr))

    def fault(self, line):
        if b"more than 1000000 messages" in line:
            return "TooManyMessages", None, ""
        said = re.search(rb"refused at (\d+) in [^:]*: (\w+)(?: (.+))?\n", line)
        return (said[2].decode(), int(said[1]), (said[3] or b"").decode()) if said else None

    def lines(self, lines):
        words = [self.program, "build", "--lines", *self.profile, "-", "-"]
        done = subprocess.run(words, input=b"".join(octets + b"\n" for octets in lines), capture_output=True, timeout=SECONDS)
        answers = done.stdout.decode().split("\n")[:-1]
        return map(line_answer, answers) if len(answers) == len(lines) else [Answer(-1, done.stderr, None)] * len(lines)


def line_answer(said):
    """The answer of a line of results: the octets in hexadecimal digits, or `refused at POINTER: CAUSE`. The line itself has no pointer, or a column."""
    if re.fullmatch("([0-9a-f]{2})+", said):
        return Answer(0, bytes.fromhex(said))
    found = re.fullmatch(r"refused(?: at (?:column \d+|(.*?)))?(?: in line \d+)?: ([A-Za-z]+)", said, re.S)
    return Answer(1, b"", (found[2], unescaped(found[1] or ""))) if found else Answer(-1, said.encode())


ESCAPES = {"n": "\n", "r": "\r", "t": "\t"}


def unescaped(pointer):
    """A pointer, which is in quotes where it has escapes: as a JSON string, as Rust escapes octets, or as `$'..'` of a shell."""
    quoted = re.fullmatch(r"""(?:"|\$')(.*)["']""", pointer, re.S)
    if not quoted:
        return pointer
    try:
        return json.loads(pointer)
    except ValueError:
        return re.sub(rb"\\(x[0-9a-f]{2}|[0-7]{3}|.)", lambda found: octet_of(found[1].decode()), quoted[1].encode(), flags=re.S).decode()


def octet_of(escape):
    """What is meant by an escape after its backslash."""
    if len(escape) == 3:
        return bytes([int(escape[1:], 16) if escape[0] == "x" else int(escape, 8)])
    return ESCAPES.get(escape, escape).encode()


class Library:
    """The calls for C of this repository, as `make` in bindings/c builds them: `illcanon_build_as` builds lines."""

    PROFILES, STATUSES = {"2": 2, "module": 3}, {0: 0, 1: 1}
    ROOM = 1 << 20

    def __init__(self, profile):
        self.profile = ctypes.c_uint32(self.PROFILES[profile])
        self.library = ctypes.CDLL(str(FOLDER.parent / "bindings/c/build/libillcanon.so"))

    def lines(self, lines):
        return map(self.line, lines)

    def line(self, octets):
        buffer, size, cause = ctypes.create_string_buffer(self.ROOM), ctypes.c_size_t(), ctypes.c_uint32()
        memory = buffer, ctypes.c_size_t(self.ROOM), ctypes.byref(size)
        status = self.library.illcanon_build_as(self.profile, octets, ctypes.c_size_t(len(octets)), *memory, ctypes.byref(cause))
        written = buffer.raw[: size.value]
        if status != 1:
            return Answer(self.STATUSES.get(status, -1), written)
        self.library.illcanon_build_cause_name(cause, *memory)
        return Answer(1, b"", (buffer.raw[: size.value].decode(), written.decode()))


class Yaz(Command):
    """The codec of YAZ, which writes what it read in indefinite form. Needs `cc` and YAZ's headers (Debian: libyaz-dev)."""

    lines = None

    # A process for each message, since it ends by a signal on some.
    def __init__(self, _):
        self.folder = tempfile.TemporaryDirectory()
        super().__init__([build_yaz(self.folder.name)])


class ErlangCodec:
    """The codec that Erlang makes of the module, which writes DER. Needs Erlang's asn1 and YAZ's module (Debian: erlang-asn1, libyaz-dev)."""

    def __init__(self, _):
        self.peer = Erlang()

    def message(self, path):
        is_read, output = self.peer.convert(path.read_bytes())
        return Answer(0, output) if is_read else Answer(1, b"", UNSAID)

    stream = message


ADAPTERS = {"illcanon": Illcanon, "library": Library, "yaz": Yaz, "erlang": ErlangCodec}


def octets_of(vector, name, runs):
    if name in vector:
        return bytes.fromhex(vector[name])
    return b"".join(bytes.fromhex(unit) * count for unit, count in vector[runs])


def line_of(vector):
    """The octets of a line."""
    if "line_octets" in vector:
        return bytes.fromhex(vector["line_octets"])
    return "".join(unit * count for unit, count in vector.get("line_runs", [(vector.get("line"), 1)])).encode()


def outcome(vector, answer, options):
    """What comes of a test vector, as MEANINGS has it."""
    if answer.status not in (0, 1):
        return "broke"
    normal = octets_of(vector, "normal", "normal_runs") if "normal" in vector or "normal_runs" in vector else b""
    if vector["result"] == "valid":
        if answer.status:
            return "refused"
        return "right" if options.decisions or says(vector, answer, normal, options) else "other"
    if not answer.status:
        return "accepted"
    if options.decisions:
        return "right"
    if answer.fault is None:
        return "broke"
    if "messages" in vector and answer.output != normal:
        return "other"
    wanted = (vector["cause"], vector["pointer"]) if "pointer" in vector else (vector["cause"], vector.get("offset"), vector.get("part", ""))
    return "right" if all(said in (None, want) for said, want in zip(answer.fault, wanted)) else "fault"


def says(vector, answer, normal, options):
    """Whether the output is that of a valid test vector."""
    if answer.shown is not None and answer.shown != text_of(vector, options.profile):
        return False
    if not options.any_spelling:
        return answer.output == normal
    from model.judge import Refused, message

    try:
        return message(answer.output, options.profile) == message(normal, options.profile)
    except Refused:
        return False


def text_of(vector, profile):
    """The value as `illcanon show` prints it."""
    from rules.book import APDUS, node_of
    from rules.values import from_json
    from shown import text

    return text(1, (APDUS.index(vector["apdu"]), from_json(node_of(vector["apdu"], profile), vector["value"])), profile)


def title_of(rule):
    """The name of a rule, and its source where the name doesn't say it."""
    kind = kind_of(rule)
    source = rule[kind] if kind in ("clause", "row") else f"{kind}: {rule[kind]}"
    return rule["name"] if rule[kind] in rule["name"] else f"{rule['name']} ({source})"


def kind_of(rule):
    return next(kind for kind in ("clause", "row", "limit", "cause", "line") if kind in rule)


def line(title, counts):
    shown = title if len(title) <= WIDTH else title[: WIDTH - 2] + ".."
    return f"{shown:{WIDTH}}" + "".join(f"{counts[name]:>9}" for name in MEANINGS)


def groups_of(path, profile):
    """The groups of a file that have test vectors of a profile, with those alone."""
    book = json.loads(path.read_text())
    own = book.get("profile", "2")
    for group in book["groups"]:
        vectors = [vector for vector in group["vectors"] if profile in vector.get("profiles", [own])]
        if vectors:
            yield {**group, "vectors": vectors}


def run_group(adapter, group, file, options):
    """How often each outcome comes of the test vectors of a group."""
    counts = Counter()
    for vector, answer in answers(adapter, group["vectors"], file, options):
        came = outcome(vector, answer, options)
        counts[came] += 1
        if came != "right" and options.vectors:
            wanted = " ".join(str(vector[name]) for name in ("result", "cause", "offset", "part", "pointer") if name in vector)
            print(f"{vector['id']}: {MEANINGS[came]}; wanted {wanted}, got status {answer.status}, {answer.fault or answer.output[:60].hex()}")
    return counts


def answers(adapter, vectors, file, options):
    """Each test vector with what the program says of it."""
    if options.lines:
        yield from zip(vectors, adapter.lines(list(map(line_of, vectors))), strict=True)
        return
    for vector in vectors:
        file.write_bytes(octets_of(vector, "octets", "runs"))
        yield vector, (adapter.stream if "messages" in vector else adapter.message)(file)


def options_of():
    parser = argparse.ArgumentParser(description=__doc__, formatter_class=argparse.RawDescriptionHelpFormatter)
    parser.add_argument("--adapter", choices=ADAPTERS)
    for name in ("decisions", "any-spelling", "streams", "lines", "all", "vectors"):
        parser.add_argument(f"--{name}", action="store_true")
    parser.add_argument("--only")
    parser.add_argument("--profile", choices=["2", "module"], default="2")
    parser.add_argument("command", nargs=argparse.REMAINDER)
    options = parser.parse_args()
    if bool(options.command) == bool(options.adapter):
        parser.error("a COMMAND or an adapter is wanted")
    if options.adapter and not getattr(ADAPTERS[options.adapter], "lines" if options.lines else "message", None):
        parser.error(f"the adapter {options.adapter} is only for " + ("octets" if options.lines else "lines"))
    return options


def main():
    options = options_of()
    adapter = ADAPTERS[options.adapter](options.profile) if options.adapter else Command(options.command)
    options.streams |= options.adapter == "illcanon"
    options.any_spelling |= options.adapter == "yaz"
    total, rules, broken = Counter(), Counter(), Counter()
    print(line("rule", {name: name for name in MEANINGS}))
    with tempfile.TemporaryDirectory() as name:
        for path in sorted(FOLDER.glob(f"{options.only or '*'}.json")):
            if path.name == "schema.json" or path.name == "streams.json" and not options.streams or (path.name == "json.json") != options.lines:
                continue
            groups = list(groups_of(path, options.profile))
            if not groups:
                continue
            counts = [run_group(adapter, group, Path(name, "message"), options) for group in groups]
            print_file(path, groups, counts, options)
            for group, came in zip(groups, counts):
                total += came
                rules[kind_of(group["rule"])] += 1
                broken[kind_of(group["rule"])] += differs(came) > 0
    print(line("all", total))
    print("rules broken: " + ", ".join(f"{broken[kind]} of {rules[kind]} by {kind}" for kind in rules))
    print(f"{sum(total.values())} test vectors, {differs(total)} differ")
    sys.exit(1 if differs(total) else 0)


def print_file(path, groups, counts, options):
    print(line(path.name, sum(counts, Counter())))
    for group, came in zip(groups, counts):
        if options.all or differs(came):
            print(line(f"    {title_of(group['rule'])}", came))


def differs(counts):
    return sum(counts[name] for name in WRONG)


if __name__ == "__main__":
    main()
