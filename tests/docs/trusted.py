"""What must be believed: follows contracts through specs/, and prints the files and definitions that they reach.

With --check, fails where docs/TRUSTED.md is not what it prints, README.md has other numbers, or README.md and docs/PROVED.md name other
functions. With --names, prints the definitions that are reached in each file. With --private, prints the files of specs/ that no public
contract reaches, and those of specs/code/ that one does.
"""
import os
import re
import signal
import sys

TOP = os.path.join(os.path.dirname(os.path.abspath(__file__)), "..", "..")
CRATES = os.path.join(TOP, "crates")
LIST = os.path.join(TOP, "docs", "TRUSTED.md")
WORD = re.compile(r"[^\s(){}\[\],.;:]+")
KEYWORDS = ("pub", "abbrev", "opaque", "unfoldable", "record", "data", "mutual", "ghost")


def without_comments(line):
    return re.sub(r"(^|\s)--.*$", "", line).rstrip()


def names_of(text, prefix=""):
    """The name that each part of a use stands for in its file: {local: (module, name)}."""
    text = text.strip()
    found = {}
    if "{" in text:
        head, _, rest = text.partition("{")
        depth, part, parts = 0, "", []
        for c in rest[: rest.rindex("}")] + ",":
            if c == "," and depth == 0:
                parts.append(part)
                part = ""
                continue
            depth += (c == "{") - (c == "}")
            part += c
        for part in parts:
            if part.strip():
                found.update(names_of(part, prefix + head))
        return found
    path, _, local = text.partition(" as ")
    module, _, name = (prefix + path.strip()).rpartition(".")
    found[(local or name).strip()] = (module, name)
    return found


def uses_of(lines, ghost):
    found = {}
    text = "\n".join(lines)
    pattern = r"(?m)^\s*ghost use ([^;]*);" if ghost else r"(?m)^(?:pub )?use (.*(?:\n[ \t}].*)*)$"
    for at in re.finditer(pattern, text):
        found.update(names_of(" ".join(at[1].split())))
    return found


class File:
    """A file of specs/: its uses, and its definitions with their lines."""

    def __init__(self, module):
        self.module = module
        parts = module.split(".")
        self.path = os.path.join(parts[1], *parts[2:]) + ".antt"
        with open(os.path.join(CRATES, self.path), encoding="utf-8") as it:
            lines = [without_comments(line) for line in it.read().split("\n")]
        self.uses = uses_of(lines, ghost=False)
        self.items = {}
        self.inside = {}
        self.read(lines)

    def read(self, lines):
        name, in_mutual = None, False
        for line in lines:
            if not line or re.match(r"(pub )?use |pub mod |\}", line):
                continue
            indent = len(line) - len(line.lstrip())
            is_end = line.lstrip()[0] in "])}"
            if indent == 0 and not is_end:
                in_mutual = False
            if not is_end and indent == (2 if in_mutual else 0):
                words = line.split()
                while words and words[0] in KEYWORDS:
                    in_mutual |= words[0] == "mutual"
                    words = words[1:]
                if not words:
                    continue
                name = words[0]
                self.items.setdefault(name, [])
            if name is None:
                continue
            self.items[name].append(line)
            member = re.match(r"\s+(?:pub )?(\S+) : ", line)
            if member and indent > (2 if in_mutual else 0):
                self.inside.setdefault(member[1], name)


FILES = {}


def file_of(module):
    """The file of a module of ours, None of what is generated or of the toolchain."""
    if module not in FILES:
        parts = module.split(".")
        is_ours = len(parts) > 2 and parts[0] == "Rattle" and parts[2] == "specs" and "declared" not in parts
        path = os.path.join(CRATES, *parts[1:]) + ".antt"
        FILES[module] = File(module) if is_ours and os.path.isfile(path) else None
    return FILES[module]


def resolved(module, name):
    """The definition that a module has under a name, its own or one that it passes on."""
    file = file_of(module)
    if file is None:
        return None
    if name in file.items:
        return module, name
    if name in file.inside:
        return module, file.inside[name]
    if name in file.uses:
        return resolved(*file.uses[name])
    return None


def words_in(text, uses, own=None):
    """The definitions that a text cites."""
    for word in WORD.findall(text):
        if own and (word in own.items or word in own.inside):
            yield own.module, own.inside.get(word, word) if word not in own.items else word
        elif word in uses:
            found = resolved(*uses[word])
            if found:
                yield found


def reached(seeds, of_laws=None):
    """The definitions that the seeds reach, by file. In place of those that a law states (LAWS) are the words of the law."""
    todo, found, laws = list(seeds), {}, set()
    of_laws = LAWS if of_laws is None else of_laws
    while todo:
        module, name = todo.pop()
        names = found.setdefault(module, set())
        if name in names:
            continue
        names.add(name)
        if (module, name) in of_laws:
            names.discard(name)
            law = of_laws[module, name]
            if law not in laws:
                laws.add(law)
                todo += contracts_of(law[0], (law[1],))
            continue
        file = file_of(module)
        todo += words_in("\n".join(file.items[name]), file.uses, file)
    return {module: names for module, names in found.items() if names}


def rust_of(crate):
    for at, _, files in sorted(os.walk(os.path.join(CRATES, crate, "src"))):
        for name in sorted(files):
            if name.endswith(".rt"):
                with open(os.path.join(at, name), encoding="utf-8") as it:
                    yield os.path.join(at, name), [re.sub(r"//.*$", "", line) for line in it.read().split("\n")]


def exported(crate):
    """The names that a library passes on."""
    with open(os.path.join(CRATES, crate, "src", "lib.rt"), encoding="utf-8") as it:
        uses = re.findall(r"pub use ([^;]*);", it.read())
    return {word for use in uses for word in re.findall(r"\w+", use)}


def functions_of(lines):
    """Each function with a contract: what it is in (an `impl` or a trait, or nothing), whether it is `pub`, its name, its contract."""
    block = ""
    for i, line in enumerate(lines):
        if re.match(r"(pub )?(impl|trait)\b", line):
            block = line
        elif line.startswith("}"):
            block = ""
        at = re.match(r"\s*(pub )?(?:final |const |unsafe |extern \"C\" )*fn (\w+)", line)
        if at:
            yield block, bool(at[1]), at[2], contract_at(lines, i)


def ghosts_of(lines):
    """Each ghost member of an `impl` or a trait, with what it is in. Not the proof that an `impl` gives of a law: nobody has to believe it."""
    block = ""
    for line in lines:
        if re.match(r"(pub )?(impl|trait)\b", line):
            block = line
        elif line.startswith("}"):
            block = ""
        if block and re.match(r" *ghost (?!use|is_exact =)", line):
            yield block, line


def contract_at(lines, start):
    """The clauses that follow a function's name, up to its body or its end."""
    indent, text = len(lines[start]) - len(lines[start].lstrip()), []
    for line in lines[start:]:
        text.append(line)
        is_clause = re.match(r"\s*(ensures|requires)\b", line)
        if line.strip() in ("{", "{}") and len(line) - len(line.lstrip()) == indent or not is_clause and line.rstrip().endswith(("{", "{}", "};")):
            break
        if line.rstrip().endswith(";") and not is_clause:
            break
        if is_clause and line.rstrip().endswith("};"):
            break
    return " ".join(text)


def clauses_of(contract, wanted):
    """The clauses of a contract that have these names, and what it requires."""
    parts = re.split(r"\b(ensures|requires)\b\s*(\w*)\s*(?={)", contract)[1:]
    clauses = [*zip(parts[::3], parts[1::3], parts[2::3])]
    missing = {*wanted} - {name for kind, name, _ in clauses if kind == "ensures"}
    if missing:
        sys.exit(f"trusted.py: no clause {', '.join(sorted(missing))} in {contract.strip()[:80]}")
    return " ".join(text for kind, name, text in clauses if kind == "requires" or name in wanted)


def names_in(block):
    """The names that the first line of an `impl` or a trait has, without the trait that is implemented."""
    return {*re.findall(r"\w+", block.partition(" for ")[2] or block)}


def contracts_of(crate, wanted=None, clauses=None):
    """The definitions that contracts cite: of what a library passes on, or of the functions of these names (`name`, or `Type::name`), in all
    clauses, or in those of these names."""
    names, missing = exported(crate), {*(wanted or ())}
    for path, lines in rust_of(crate):
        uses = uses_of(lines, ghost=True)
        for block, is_public, name, contract in functions_of(lines):
            if wanted is None:
                is_ours = bool(names & names_in(block))
                is_wanted = is_ours and (is_public or " for " in block or "trait " in block) if block else name in names
            else:
                found = {f"{of}::{name}" for of in names_in(block)} if block else {name}
                is_wanted = bool(found & {*wanted})
                missing -= found
            if is_wanted:
                yield from words_in(clauses_of(contract, clauses) if clauses else contract, uses)
        if wanted is None:
            for block, text in ghosts_of(lines):
                if names & names_in(block):
                    yield from words_in(text, uses)
    if missing:
        sys.exit(f"trusted.py: {crate} has no function {', '.join(sorted(missing))}")


def lines_of(module, names):
    file = file_of(module)
    return sum(len(file.items[name]) for name in names)


def size(found):
    """How many files and lines the definitions have."""
    return len(found), sum(lines_of(module, names) for module, names in found.items())


# The columns: a mark, what it is of, and the functions whose contracts say it (None for all that a library passes on), with the clauses that say
# it where these aren't all. Those with a number are the claims of README.md, which names the same functions; README.md or docs/PROVED.md names
# those of the others.
COLUMNS = [
    ("1", "Equal normal forms", [("ill_normal", "normal_forms_are_equal_exactly_if_apdus_are"), ("ill_normal", "same_message", "same", "accepts")]),
    ("2", "What is accepted", [("ill_read", "decode", "spelled", "accepts"), ("ill_read", "read_message", "spelled", "accepts")]),
    ("3", "However the input is cut", [("ill_read", "Decoder::feed"), ("ill_read", "read_message", "next")]),
    ("4", "One cause at one offset", [("ill_refusals", "one_outcome"), ("ill_normal", "one_refusal_of_a_slice")]),
    ("N", "Normal forms of streams", [("ill_normal", name) for name in ("normalise", "normalise_stream", "check_one", "is_normal")]),
    ("T", "APDUs as structs", [("ill_apdu", None), *(("ill_parts", name) for name in ("Part::to_value", "Part::read", "Typed::from_value", "Typed::one_view"))]),
    ("M", "The module profile beside profile 2", [("ill_schema", "the_module_reads_profile_two"), ("ill_schema", "no_octets_change_their_meaning")]),
    ("K", "Causes and depths in each profile", [("ill_refusals", name) for name in ("causes_of_profiles", "few_elements_are_open", "the_module_refuses_other_tags")]),
    ("J", "The program's jobs", [("ill_commands", "run_as"), ("ill_commands", "run_same_as")]),
    ("S", "Refused messages skipped, results as JSON", [
        ("ill_normal", "read_input"),
        ("ill_commands", "run_job"),
        ("ill_commands", "refused_json"),
        ("ill_json", "result_line"),
        ("ill_json", "refused_line"),
    ]),
    ("L", "The program's lines", [("ill_commands", "run_lines_as")]),
    ("O", "From words to action and exit status", [
        ("ill_args", "order"),
        ("ill_cli", "Action::new"),
        ("ill_cli", "InputAction::new"),
        ("ill_cli", "do_in_turn"),
        ("ill_cli", "run_order"),
        ("ill_cli", "Summary::add"),
        *(("ill_files", name) for name in ("status_of", "combined_status", "is_output_lost", "keeps_output", "keeps_refused")),
    ]),
    ("C", "The calls for C", [("ill_c", None)]),
]

TEXT = """# What must be believed

The definitions between a theorem and its reader: those that a contract cites, those that these cite, and so on. Where clauses are named, only those state the claim. `tests/docs/trusted.py` makes this list.

Mark | Claim | Functions whose contracts say it | Files | Lines
---|---|---|---|---
{rows}

Claims 1 to 4 are those of the [README](../README.md#what-is-proved). Together they need {claim_lines} lines in {claim_files} files, without comments and blank lines.

Not listed, but to be believed: types of the Rust code, and what is cited of std, `jiff`, `json`, `hex`, `sha2` and `clap`.

Not listed, since a law has it in words that are listed: the functions of `ber_core/specs/Reading.antt` (`ber_core::headers_are_read`), and how a decoder's state is said in its fields (`ill_read::decoders_are_apart`).

## Files

The files of `crates/`, without their ending: for which claims they are needed, and how many lines of them. `python3 tests/docs/trusted.py --names` prints the definitions.

```text
{files}
```
"""

# The columns besides the claims whose numbers README.md gives.
README_TOO = "TM"

# Definitions that a law states in the words of others, so that nobody has to believe them: the law, and what they are.
READING = "Rattle.ber_core.specs.Reading"
LAWS = {(READING, name): ("ber_core", "headers_are_read") for name in ("class_of", "tagged", "read_digits", "read_number", "read_identifier", "read_length")}
FEEDING = "Rattle.ill_read.specs.Feeding"
LAWS.update({(FEEDING, name): ("ill_read", "decoders_are_apart") for name in ("IsOpenAt", "IsOpenAfter", "IsWholeWith", "HasFailedWith")})
PRODUCT = "ber_tree ber_core ber_framing ber_leaf ill_tables ill_schema ill_refusals ill_inputs ill_read ill_write ill_normal ill_text ill_json ill_commands ill_walk ill_dump ill_args ill_files ill_cli ill_c ill_parts ill_apdu".split()


def said(crate, name, *clauses):
    """A function, with its clauses, as the list names it."""
    if not name:
        return f"all of `{crate}`"
    return f"`{crate}::{name}`" + (f" ({', '.join(f'`{clause}`' for clause in clauses)})" if clauses else "")


def columns():
    """Each column of the list: its mark, what it is of, the functions whose contracts it follows, and what they reach."""
    for mark, title, functions in COLUMNS:
        calls = ", ".join(said(*function) for function in functions)
        yield mark, title, calls, reached([seed for crate, name, *clauses in functions for seed in contracts_of(crate, name and (name,), clauses)])


def union(parts):
    """All that the parts reach."""
    found = {}
    for part in parts:
        for module, names in part.items():
            found.setdefault(module, set()).update(names)
    return found


def document():
    of = [*columns()]
    claims = union(found for mark, _, _, found in of if mark.isdigit())
    everything = union(found for *_, found in of)
    rows = [f"{mark} | {title} | {calls} | {size(found)[0]} | {size(found)[1]:,}" for mark, title, calls, found in of]
    # the files of a folder that are for the same claims, in one line
    folders = {}
    for module in sorted(everything, key=lambda module: file_of(module).path):
        at, name = os.path.split(file_of(module).path)
        marks = "".join(mark if module in found else "." for mark, _, _, found in of)
        group = folders.setdefault(at, {}).setdefault(marks, [[], 0])
        group[0].append(name.removesuffix(".antt"))
        group[1] += lines_of(module, everything[module])
    files = []
    for at, groups in folders.items():
        files += [f"{at}/", *(f"  {marks} {lines:>4}  {' '.join(names)}" for marks, (names, lines) in groups.items())]
    values = {"rows": "\n".join(rows), "files": "\n".join(files), "claim_files": size(claims)[0], "claim_lines": f"{size(claims)[1]:,}"}
    return TEXT.format(**values)


def names():
    """The definitions of each file that the list has."""
    for module, found in sorted(union(found for *_, found in columns()).items()):
        print(file_of(module).path, *(name for name in file_of(module).items if name in found))


def readme_faults():
    """The numbers that README.md doesn't give, and the functions that it and docs/PROVED.md don't name as COLUMNS has them."""
    texts = []
    for name in ("README.md", os.path.join("docs", "PROVED.md")):
        with open(os.path.join(TOP, name), encoding="utf-8") as it:
            texts.append(it.read())
    # the claims in their order, and the other columns that README.md has numbers of
    found = {mark: found for mark, _, _, found in columns()}
    claims = [found[mark] for mark in found if mark.isdigit()]
    bullet = re.search(r"^- The definitions that the clauses of these claims use\..*", texts[0], re.M)
    said = [(int(lines.replace(",", "")), int(files)) for lines, files in re.findall(r"([\d,]+) (?:lines )?in (\d+)\b", bullet[0] if bullet else "")]
    wanted = [(lines, files) for files, lines in map(size, [*claims, union(claims), *(found[mark] for mark in README_TOO)])]
    if said != wanted:
        yield f"README.md has other lines and files than {wanted}: {said}"
    table = texts[0].partition("\nClaim | ")[2].partition("\n\n")[0].split("\n")[2:]
    rows = [{call.rpartition("::")[2] for call in re.findall(r"`([\w:]+)`", row.split(" | ")[1])} for row in table]
    wanted = [{name.rpartition("::")[2] for _, name, *_ in functions} for mark, _, functions in COLUMNS if mark.isdigit()]
    if rows != wanted:
        yield f"README.md names other functions for its claims than COLUMNS has: {rows}"
    words = {word for text in texts for word in re.findall(r"`([\w:]+)`", text)}
    for mark, _, functions in COLUMNS:
        for crate, name, *_ in functions:
            if name and not any(f"::{word}".endswith((f"::{name}", "::" + name.removesuffix("_as"))) or word == name.rpartition("::")[2] for word in words):
                yield f"neither README.md nor docs/PROVED.md names {crate}::{name}, of column {mark}"
            if not name and not re.search(rf"\b{crate}\b", texts[1]):
                yield f"docs/PROVED.md doesn't name {crate}, of column {mark}"


def private():
    found = {}
    for crate in PRODUCT:
        for module, names in reached(contracts_of(crate), of_laws={}).items():
            found.setdefault(module, set()).update(names)
    for crate in PRODUCT:
        specs = os.path.join(CRATES, crate, "specs")
        for at, _, files in sorted(os.walk(specs)):
            for name in sorted(files):
                module = "Rattle." + os.path.relpath(os.path.join(at, name), CRATES)[:-5].replace(os.sep, ".")
                if not name.endswith(".antt") or name == "Lib.antt" or not file_of(module).items:
                    continue
                is_code = ".specs.code." in module
                if (module in found) == is_code:
                    print(f"{file_of(module).path}: {'reached' if is_code else 'not reached'} by a public contract", *sorted(found.get(module, [])))


if __name__ == "__main__":
    if sys.argv[1:] == ["--private"]:
        private()
    elif sys.argv[1:] == ["--check"]:
        with open(LIST, encoding="utf-8") as it:
            found = [] if it.read() == document() else ["docs/TRUSTED.md is out of date: python3 tests/docs/trusted.py > docs/TRUSTED.md"]
        found += readme_faults()
        sys.exit("\n".join(found) or 0)
    elif sys.argv[1:] == ["--names"]:
        signal.signal(signal.SIGPIPE, signal.SIG_DFL)
        names()
    else:
        sys.stdout.write(document())
