#!/usr/bin/env python3
"""Prints what is proved of each call, out of crates/: its first sentence and the names of its clauses.

Usage: proved.py CRATE           the public calls of a crate
       proved.py CRATE CALL..    the same with each clause in full; CALL is `normalise` or `Decoder::feed`
       proved.py --laws [CRATE]  the laws, with what each says
       proved.py --wrong         the wrong bodies: the edits that `rt ci` and tests/edits/run.py try, and what laws and clauses exclude (wrong_bodies.txt)
       proved.py --check         fails where a document names a call, a clause, a law or an edit that isn't there
"""
import re
import signal
import sys
import textwrap
from pathlib import Path

import trusted

TOP = Path(__file__).resolve().parents[2]
CRATES = TOP / "crates"
WRONG = TOP / "tests/docs/wrong_bodies.txt"
FUNCTION = re.compile(r'\s*(?:pub )?(?:const |final |unsafe |extern "C" )*fn (\w+)')
# A call that a document names, and the clauses right after it.
CALLED = re.compile(r"`(\w+::(?:\w+::)?[a-z]\w*)`(?: \(((?:`\w+`(?:, )?)+)\))?")
# The files that have laws, by the end of their path.
LAWS = re.compile(r"/(laws|\w+_laws|contracts)\.rt$|test_messages/src/(normal/(profiles|refused)|schema/module)\.rt$|test_encoding/src/frames\.rt$")
# The documents whose calls and clauses are looked up, and those whose other names are, too.
CHECKED = ("README.md", *(f"docs/{name}.md" for name in ("ARCHITECTURE", "CALLING", "DECISIONS", "DEFINITIONS", "GLOSSARY", "PERFORMANCE", "PROVED", "TESTING")))
WITH_LAWS = ("docs/TESTING.md", "docs/PROVED.md")


def type_of(block):
    """The type or the trait that the first line of an `impl` or a `trait` is of; nothing of no line."""
    while re.search(r"<[^<>]*>", block):
        block = re.sub(r"<[^<>]*>", "", block)
    words = re.findall(r"\w+", block.partition(" for ")[2] or re.sub(r"^(pub )?(impl|trait)\b", "", block))
    return words[0] if words else ""


class Function:
    """A function with its documentation and its contract, and what it is in: a type, a trait or nothing."""

    def __init__(self, path, lines, at, block):
        self.path, self.line = path.relative_to(TOP), at + 1
        self.name = FUNCTION.match(lines[at])[1]
        self.is_public = lines[at].lstrip().startswith("pub ") or block.startswith("pub trait")
        self.type = type_of(block)
        start = at
        while start and re.match(r"\s*(///|#\[)", lines[start - 1]):
            start -= 1
        self.doc = " ".join(line.strip()[3:].strip() for line in lines[start:at] if line.lstrip().startswith("///"))
        self.is_test = any("#[test]" in line for line in lines[start:at])
        bare = [re.sub(r"//.*$", "", line) for line in lines]
        text = trusted.contract_at(bare, at)
        text = re.split(r"\s(?=(?:requires|ensures|invariant)\b)", re.sub(r"\s+", " ", text))
        self.clauses = [clause.strip().rstrip("{").strip() for clause in text[1:]]

    def full_name(self):
        return f"{self.type}::{self.name}" if self.type else self.name

    def clause_names(self):
        return [re.match(r"\w+ (\w*)", clause)[1] for clause in self.clauses]

    def first_sentence(self):
        return re.match(r"(?:[^.]|\.(?! |$))*\.?", self.doc.partition(" # ")[0])[0]


def functions(crate):
    """All functions of a crate."""
    for path in sorted((CRATES / crate / "src").rglob("*.rt")):
        lines, block = path.read_text(encoding="utf-8").split("\n"), ""
        for at, line in enumerate(lines):
            if re.match(r"(pub )?(impl|trait)\b", line):
                block = line
            elif line.startswith("}"):
                block = ""
            if FUNCTION.match(line) and not line.lstrip().startswith("//"):
                yield Function(path, lines, at, block)


def is_law(function):
    """Laws have a text, and are in no type. A test crate's are private; in a file with other functions they have long names."""
    is_own = function.is_public or function.path.name == "contracts.rt" or function.name.count("_") > 2
    return bool(LAWS.search(str(function.path))) and is_own and bool(function.doc) and not function.type and not function.is_test


def calls(crate):
    """The public calls of a crate that have a contract of their own."""
    if not (CRATES / crate / "src/lib.rt").exists():
        return
    names = trusted.exported(crate)
    for function in functions(crate):
        is_passed_on = function.path.name == "lib.rt" or (function.type or function.name) in names
        if is_passed_on and function.is_public and function.clauses:
            yield function


def print_text(text, start="    "):
    print(textwrap.fill(text, 110, initial_indent=start, subsequent_indent=" " * len(start)))


def print_function(function, in_full):
    names = [name or "one" for name in function.clause_names()]
    print(f"{function.full_name()}  ({function.path.relative_to('crates')}:{function.line})")
    print_text(function.first_sentence())
    for clause in function.clauses if in_full else [", ".join(names)]:
        print_text(clause, "    | ")


def print_laws(only):
    for crate in sorted(path.name for path in CRATES.iterdir() if path.name in only or not only):
        for function in functions(crate):
            if is_law(function):
                print(f"{crate}::{function.name}  ({function.path.relative_to('crates')}:{function.line})")
                print_text(function.doc)


def edits():
    """The edits with their crates: those that `rt ci` tries, and those that tests/edits/run.py tries."""
    found = [(path.parts[-3], path) for path in CRATES.glob("*/must-fail/*.edit")]
    found += [(path.parts[-2], path) for path in (TOP / "tests/edits").glob("*/*.edit")]
    for crate, path in sorted(found):
        yield crate, path, dict(re.findall(r"(?m)^(file|old|new): *(.*)$", path.read_text(encoding="utf-8")))


def excluded():
    """The lines of wrong_bodies.txt: their number, laws (or a call and its clauses), and wrong bodies."""
    for number, line in enumerate(WRONG.read_text(encoding="utf-8").splitlines(), 1):
        if line and not line.startswith("#"):
            names, _, bodies = line.partition(": ")
            yield number, names, bodies


def print_wrong():
    print("Edits that the prover has to refuse:\n")
    for crate, path, edit in edits():
        print(f"{path.stem}  ({crate}/{edit['file']})\n    - {edit['old']}\n    + {edit['new']}")
    print("\nExcluded by laws and clauses:\n")
    for _, names, bodies in excluded():
        print(names)
        print_text(bodies)


def faults():
    """What the documents name and the crates don't have."""
    by_crate = {path.name: list(functions(path.name)) for path in CRATES.iterdir() if path.is_dir()}
    named = {}
    for crate, found in by_crate.items():
        for function in found:
            for name in {function.full_name(), f"{crate}::{function.name}", f"{crate}::{function.full_name()}"}:
                named.setdefault(name, []).append(function)
    known = {function.name for found in by_crate.values() for function in found} | {path.stem for _, path, _ in edits()}
    for document in CHECKED:
        for number, line in enumerate((TOP / document).read_text(encoding="utf-8").splitlines(), 1):
            for call, clauses in CALLED.findall(line):
                there = {name for function in named.get(call, []) for name in function.clause_names()}
                if call not in named:
                    yield f"{document}:{number}: no call `{call}`"
                for clause in re.findall(r"\w+", clauses):
                    if clause not in there:
                        yield f"{document}:{number}: no clause `{clause}` of `{call}`"
            if " | " in line and CALLED.search(line):
                for clauses in re.findall(r"\([^()]*`[a-z_]+`[^()]*\)", CALLED.sub("", line)):
                    yield f"{document}:{number}: {clauses} is not right after a call"
            if document in WITH_LAWS:
                for name in re.findall(r"`([a-z0-9]+(?:_[a-z0-9]+){2,})`", line):
                    if name not in known and not (CRATES / name).is_dir():
                        yield f"{document}:{number}: no law, edit or call `{name}`"
    laws = {function.name for found in by_crate.values() for function in found if is_law(function)}
    for number, names, _ in excluded():
        call, _, clauses = names.partition(" (")
        there = {name for function in named.get(call, []) for name in function.clause_names()}
        missing = [name for name in clauses.rstrip(")").split() if name not in there]
        if missing or not ((call in named and "::" in call) or laws.issuperset(names.split())):
            yield f"{WRONG.relative_to(TOP)}:{number}: no such law, call or clause: {' '.join(missing) or names}"


def main():
    words = sys.argv[1:]
    if words[:1] == ["--laws"]:
        print_laws(words[1:])
    elif words == ["--wrong"]:
        print_wrong()
    elif words == ["--check"]:
        found = list(faults())
        print(*found, sep="\n", end="\n" if found else "")
        sys.exit(1 if found else 0)
    elif words and (CRATES / words[0]).is_dir():
        wanted = words[1:]
        found = [call for call in calls(words[0]) if not wanted or call.name in wanted or call.full_name() in wanted]
        for call in found:
            print_function(call, bool(wanted))
        if not found:
            sys.exit(f"proved.py: {words[0]} has no such call of its own")
    else:
        sys.exit(__doc__)


if __name__ == "__main__":
    signal.signal(signal.SIGPIPE, signal.SIG_DFL)
    main()
