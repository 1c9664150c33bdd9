#!/usr/bin/env python3
"""Checks the documents: links and names of files, sizes, words, the version, the list of causes, and the examples with their output; and by
facts.py numbers, exit statuses, commands and options against the code. Of the sources, words of comments.

Usage: tests/docs/docs.py [PROGRAM]

A block ```console holds commands, each after `$ `, and after each the lines that it prints (standard output and standard
error together). They run one after the other, by bash, in a new folder that has the files of examples/, also below `examples/`, with `illcanon` on
the path. A block ```sh is run, too, unless it is marked `no-run`, and has to end with status 0. A block ```console jq is run
where jq is installed. PROGRAM is the built program (else crates/illcanon/out/illcanon); without it no example is run, and
that is a fault.
"""
import os
import pathlib
import re
import shutil
import subprocess
import sys
import tempfile

import facts

ROOT = pathlib.Path(__file__).resolve().parents[2]
DOCUMENTS = [ROOT / "README.md", ROOT / "CHANGELOG.md", ROOT / "SECURITY.md", ROOT / "vectors/README.md", *sorted((ROOT / "docs").glob("*.md"))]
# Words that the documents don't use, each with one to use in its place.
WORDS = [
    (re.compile(r"\bwant of\b|\bwanting\b"), "missing"),
    (re.compile(r"\bso many\b"), "a number"),
    (re.compile(r"\bbehind\b"), "after"),
    (re.compile(r"\bis none\b"), "is not, or invalid"),
    (re.compile(r"\bsurely\b"), "certainly"),
    (re.compile(r"\btold\b"), "reported"),
    (re.compile(r"\bstands?\b(?! for)|\bstanding\b"), "is"),
]
# Words that the sources don't use either.
SOURCE_WORDS = [
    (re.compile(r"\bwant of memory\b"), "out of memory"),
    (re.compile(r"\bso many (octets|messages|bytes)\b"), "a number"),
    (re.compile(r"\bis none\b"), "is not, or invalid"),
    (re.compile(r"\bsurely\b"), "certainly"),
]
LARGEST = {"README.md": 9216, "docs/DECISIONS.md": 12288}
# as many words as README.md and docs/*.md have at most
MOST_WORDS = 12_550
faults = []


def fault(path, line, text):
    faults.append(f"{path.relative_to(ROOT)}:{line}: {text}")


def prose(text):
    """The lines of a document with their numbers, without blocks of code, and with code between backticks left out."""
    code = False
    for number, line in enumerate(text.splitlines(), 1):
        if line.lstrip().startswith("```"):
            code = not code
        elif not code:
            yield number, re.sub(r"`[^`]*`", "``", line)


def anchors(path):
    """The anchors of the headings of a document, as forges make them."""
    for line in path.read_text(encoding="utf-8").splitlines():
        if line.startswith("#"):
            title = re.sub(r"[^\w\- ]", "", line.lstrip("#").strip().lower())
            yield title.replace(" ", "-")


def check_links(path, text):
    for number, line in enumerate(text.splitlines(), 1):
        for target in re.findall(r"\]\(([^)\s]+)\)", line):
            if re.match(r"[a-z]+:", target):
                continue
            name, _, anchor = target.partition("#")
            file = (path.parent / name).resolve() if name else path
            if not file.exists():
                fault(path, number, f"no such file: {target}")
            elif anchor and anchor not in set(anchors(file)):
                fault(path, number, f"no such heading: {target}")


def sources():
    """The names of all files, and each with the folders after crates/."""
    names = set()
    for file in subprocess.run(["git", "ls-files", "-co", "--exclude-standard"], cwd=ROOT, capture_output=True, text=True, check=True).stdout.splitlines():
        parts = file.split("/")
        names.update("/".join(parts[i:]) for i in range(len(parts)))
        names.update("/".join(parts[:i]) for i in range(1, len(parts)))
        if parts[0] == "crates":
            names.update("/".join(parts[1:i]) for i in range(2, len(parts)))
    return names


def check_names(path, text, names):
    """Names of files between backticks exist."""
    for number, line in enumerate(text.splitlines(), 1):
        for name in re.findall(r"`([\w./-]+)`", line):
            named = name.rstrip("/")
            if re.search(r"\.(rt|antt|py|sh|md|txt|edit|h|c|toml|json)$", named) and not named.startswith(("/", "../")):
                if named.removeprefix("./") not in names and not (path.parent / named).exists():
                    fault(path, number, f"no such file: {name}")
            elif name.endswith("/") and named not in names and not (path.parent / named).exists() and not any(n.endswith("/" + named) for n in names):
                fault(path, number, f"no such folder: {name}")


def known_words():
    """The words of the code: of its sources, definitions, proofs, tests and bindings."""
    files = (file for name in ("crates", "tests", "bindings", "vectors", "examples") for file in (ROOT / name).rglob("*"))
    words = {path.name for path in (ROOT / "crates").iterdir()}
    for file in files:
        if file.suffix in (".rt", ".antt", ".py", ".sh", ".c", ".h", ".js", ".ts", ".in", ".json") and "out" not in file.parts:
            words.update(re.findall(r"\w+", file.read_text(encoding="utf-8", errors="replace")))
    return words


# Words in two parts, as calls and types have them.
CODE_WORD = re.compile(r"\b(?:[a-z][a-z0-9]*(?:_[a-z0-9]+)+|[A-Z][a-z]+(?:[A-Z][a-z]+)+)\b")


def check_code_words(path, text, known):
    """Calls and types between backticks exist. The changelog also names those that are gone."""
    for number, line in enumerate(text.splitlines(), 1):
        for span in re.findall(r"`([^`]*)`", line):
            for word in CODE_WORD.findall(span):
                if word not in known:
                    fault(path, number, f"no such name: {word}")


def check_words(path, text):
    for number, line in prose(text):
        for word, instead in WORDS:
            if word.search(line):
                fault(path, number, f"say `{instead}` for `{word.search(line).group()}`")


def check_sources():
    """The words of *.rt."""
    for path in sorted((ROOT / "crates").glob("*/src/**/*.rt")):
        for number, line in enumerate(path.read_text(encoding="utf-8").splitlines(), 1):
            for word, instead in SOURCE_WORDS:
                if word.search(line):
                    fault(path, number, f"say `{instead}` for `{word.search(line).group()}`")


def check_words_in_all():
    count = sum(len(path.read_text(encoding="utf-8").split()) for path in [ROOT / "README.md", *(ROOT / "docs").glob("*.md")])
    if count > MOST_WORDS:
        fault(ROOT / "README.md", 1, f"README.md and docs/*.md have {count} words, and at most {MOST_WORDS} are wanted")


def check_sizes(path, text):
    most = LARGEST.get(str(path.relative_to(ROOT)))
    if most and len(text.encode()) > most:
        fault(path, 1, f"{len(text.encode())} octets, and at most {most} are wanted")
    if path.name != "README.md" or path.parent != ROOT:
        return
    paragraph, start = [], 1
    for number, line in [*prose(text), (0, "")]:
        if line.strip() and "|" not in line and not line.startswith(("#", "- ", "1. ")):
            start = start if paragraph else number
            paragraph += line.split()
            continue
        if len(paragraph) > 80:
            fault(path, start, f"a paragraph of {len(paragraph)} words; at most 80 are wanted")
        paragraph = []


def check_version():
    wanted = re.search(r'\.version\("([^"]+)"\)', (ROOT / "crates/ill_args/src/program.rt").read_text()).group(1)
    for file, pattern in [
        ("bindings/c/Makefile", r"^VERSION = (\S+)"),
        ("bindings/c/illcanon.h", r'ILLCANON_VERSION "([^"]+)"'),
        ("bindings/python/pyproject.toml", r'^version = "([^"]+)"'),
        ("bindings/python/backend/wheel_of_illcanon.py", r'VERSION = "illcanon", "([^"]+)"'),
        ("bindings/python/illcanon/_library.py", r'^VERSION = "([^"]+)"'),
        ("bindings/web/package.json", r'"version": "([^"]+)"'),
        ("CHANGELOG.md", r"^## \[?(\d+\.\d+\.\d+)"),
        ("crates/ill_c/src/version.rt", r'VERSION: &\[u8\] = b"([^"]+)"'),
        ("crates/ill_c/specs/Version.antt", r'^version = codes "([^"]+)"'),
    ]:
        path = ROOT / file
        found = re.search(pattern, path.read_text(), re.M)
        if not found or found.group(1) != wanted:
            fault(path, 1, f"the version is not {wanted}, that of crates/ill_args/src/program.rt")


def check_causes():
    """`help causes` has a line for each cause, with its name and its text."""
    texts = re.findall(r'Cause::(\w+)(?:\(_\))? => "([^"]+)"', (ROOT / "crates/ill_schema/src/refusal.rt").read_text().partition("fn text(")[2].partition("fn clause(")[0])
    path = ROOT / "crates/ill_args/src/topics.rt"
    listed = re.findall(r"^([A-Z]\w+) {2,}(\S.*)$", path.read_text(), re.M)
    for name, text in texts:
        if (name, text) not in listed:
            fault(path, 1, f"no line for {name}: {text}")
    if len(listed) != len(texts):
        fault(path, 1, f"{len(listed)} causes, and there are {len(texts)}")


def blocks(text):
    """Each block of code: the number of its first line, its language with what follows it, and its lines."""
    lines = text.splitlines()
    at = 0
    while at < len(lines):
        if lines[at].startswith("```"):
            end = next(i for i in range(at + 1, len(lines)) if lines[i].startswith("```"))
            yield at + 2, lines[at][3:].strip(), lines[at + 1 : end]
            at = end
        at += 1


def steps(lines):
    """The commands of a block with the number of their line and the output that they are to have."""
    found = []
    for number, line in enumerate(lines):
        if line.startswith("$ "):
            found.append((number, [line[2:]], []))
        elif line.startswith("> ") and found and not found[-1][2]:
            found[-1][1].append(line[2:])
        else:
            found[-1][2].append(line)
    return found


def run_examples(path, text, program):
    with tempfile.TemporaryDirectory() as folder:
        work = pathlib.Path(folder) / "work"
        shutil.copytree(ROOT / "examples", work)
        os.symlink(".", work / "examples")
        (pathlib.Path(folder) / "bin").mkdir()
        os.symlink(program, pathlib.Path(folder) / "bin/illcanon")
        environment = {**os.environ, "PATH": f"{folder}/bin:{os.environ['PATH']}", "ILLCANON": str(ROOT), "LC_ALL": "C.UTF-8"}

        def run(command):
            return subprocess.run(["bash", "-c", command], cwd=work, env=environment, stdin=subprocess.DEVNULL, stdout=subprocess.PIPE, stderr=subprocess.STDOUT, text=True, timeout=600)

        count = 0
        for first, language, lines in blocks(text):
            if language == "console jq" and not shutil.which("jq"):
                print(f"{path.relative_to(ROOT)}:{first}: no jq, so the example is not run")
            elif language in ("console", "console jq"):
                for number, command, wanted in steps(lines):
                    count += 1
                    found = run("\n".join(command)).stdout.splitlines()
                    if found != wanted:
                        fault(path, first + number, "`{}` prints\n  {}".format(" ".join(command), "\n  ".join(found)))
            elif language == "sh":
                count += 1
                done = run("set -e\n" + "\n".join(lines))
                if done.returncode != 0:
                    fault(path, first, f"ends with status {done.returncode}:\n  " + "\n  ".join(done.stdout.splitlines()))
        return count


def main():
    program = pathlib.Path(sys.argv[1] if len(sys.argv) > 1 else ROOT / "crates/illcanon/out/illcanon").resolve()
    names = sources()
    known = known_words()
    examples = 0
    for path in DOCUMENTS:
        text = path.read_text(encoding="utf-8")
        check_links(path, text)
        check_names(path, text, names)
        if path.name != "CHANGELOG.md":
            check_code_words(path, text, known)
        check_words(path, text)
        check_sizes(path, text)
        if program.exists() and path.parent != ROOT / "vectors":
            examples += run_examples(path, text, program)
    check_version()
    check_causes()
    check_sources()
    check_words_in_all()
    if not program.exists():
        fault(ROOT / "crates", 1, f"the program is not built, so no example was run: {program}")
    faults.extend(facts.check([str(path.relative_to(ROOT)) for path in DOCUMENTS], program))
    for line in faults:
        print(line)
    print(f"{len(DOCUMENTS)} documents, {examples} examples, {len(faults)} faults")
    sys.exit(1 if faults else 0)


if __name__ == "__main__":
    main()
