#!/usr/bin/env python3
"""Tries the edits in the folders beside it, each of the crate that its folder is named after: the prover must refuse every one.

usage: run.py [--all] [--self-test] [CRATE..]

An edit has the lines of one of `must-fail/`, and a line 'only: FUNCTION', which names the function of the body that it changes. It counts as
refused only if it can be applied, the crate still compiles, and that function is not proved for itself: not only because it calls one that
isn't. `rt ci` would prove the crates a second time for the edits. This checks only the functions that they change, those of one crate in one run,
in a copy of it, with a function that no edit changes and that has to be proved. It reads the libraries below in crates/*/out/rlib, which
`rt ci` leaves there. The last line is 'N passed, M failed'.

--all tries those too that have a line 'slow:', which says why the gate leaves them out.
--self-test leaves out the changes: then each function has to be proved, and each edit is reported as not refused."""
import re
import shutil
import subprocess
import sys
import tempfile
from concurrent.futures import ThreadPoolExecutor
from pathlib import Path

HERE = Path(__file__).resolve().parent
TOP = HERE.parent.parent
CRATES = TOP / "crates"
# Of each crate, a function that no edit changes.
UNTOUCHED = {
    "ber_core": "put::length_size",
    "ber_foreign": "shortest::number",
    "ber_leaf": "null::NullLeaf::check",
    "ill_build": "members::place_of",
    "ill_c": "profile::profile_numbered",
    "ill_cli": "limit::RefusalLimit::error",
    "ill_commands": "lines::words::push_cause",
    "ill_grammar": "cell::levels_in",
    "ill_normal": "counts::Counts::none",
    "ill_parts": "leaves::number_value",
    "ill_read": "reader::Reader::outcome",
    "ill_schema": "entry::may_lack",
    "ill_tables": "lookup::rows",
    "ill_texts": "number::is_negative",
    "ill_write": "element::row_at",
    "oid_text": "number::split_at_dot",
}


class Bad(Exception):
    """An edit that can't be tried."""


def dependencies():
    """Each crate with those that it stands on, by crates.txt, which leaves out the kit's."""
    found = {}
    for line in (TOP / "crates.txt").read_text(encoding="utf-8").splitlines():
        name, colon, below = line.partition("#")[0].partition(":")
        if colon:
            found[name.split()[0]] = below.split()
    return found


def kit():
    """The toolchain's folder, that of `rt`."""
    rt = shutil.which("rt")
    if not rt:
        sys.exit("edits: there is no `rt` here")
    return Path(rt).resolve().parent.parent


def command(crate, names):
    """Checks these functions of the crate in the current folder."""
    of_kit, below = kit(), dependencies()

    def library(name):
        built = CRATES / name / "out/rlib" / f"{name}.rlib" if name in below else of_kit / "rlibs" / f"{name}.rlib"
        if not built.is_dir() and not built.is_file():
            sys.exit(f"edits: {built} isn't there: run `rt ci` first, which builds it")
        return built

    reached = []

    def reach(name):
        for other in below.get(name, []):
            if other not in reached:
                reach(other)
                reached.append(other)

    reach(crate)
    words = [of_kit / "bin/rattle", "check", "--crate-name", crate, "src/lib.rt"]
    for name in ["std", *below[crate]]:
        words += ["--extern", f"{name}={library(name)}"]
    for folder in dict.fromkeys([of_kit / "rlibs", *(library(name).parent for name in reached)]):
        words += ["-L", f"dependency={folder}"]
    words += ["--antt-project", of_kit / "rattle/logic/antt-project.json", "--logic-built", of_kit / "logic_built"]
    # With --margin the prover gives up sooner on what it can't prove; what no edit changes is proved all the same (--self-test).
    # In ill_c, that isn't so of `dump`.
    words += [*["--margin"] * (crate != "ill_c"), "--links", f"{crate}=", "--jobs", "1"]
    for name in names:
        words += ["--only", name]
    return words


class Edit:
    """An edit: the function that it changes, and the changes, each of a file and a text that stands there once."""

    def __init__(self, path):
        self.name = f"{path.parent.name}/{path.stem}"
        self.function = None
        self.is_slow = False
        self.changes = []
        file = old = None
        for line in path.read_text(encoding="utf-8").splitlines():
            key, _, text = line.partition(": ")
            if key == "file":
                file = text
            elif key == "old":
                old = text
            elif key == "new" and file and old:
                self.changes.append((file, old, text))
            elif key == "only":
                self.function = text
            elif key == "slow":
                self.is_slow = True
        if not self.function or not self.changes:
            raise Bad(f"{self.name}: no line 'only:', or no 'file:', 'old:' and 'new:'")

    def apply(self, folder):
        for file, old, new in self.changes:
            text = (folder / file).read_text(encoding="utf-8")
            if text.count(old) != 1:
                raise Bad(f"{self.name}: {file} has the old text {text.count(old)} times: {old.strip()}")
            if old == new:
                raise Bad(f"{self.name}: it changes nothing")
            (folder / file).write_text(text.replace(old, new), encoding="utf-8")


def of_crate(crate, function):
    return function if function.startswith(f"{crate}::") else f"{crate}::{function}"


def check(crate, edits, changed):
    """What the prover says of each function: of those of the edits, and of one that no edit changes."""
    with tempfile.TemporaryDirectory() as room:
        folder = Path(room) / crate
        shutil.copytree(CRATES / crate, folder, ignore=shutil.ignore_patterns("out"))
        for edit in edits:
            if changed:
                edit.apply(folder)
        names = [of_crate(crate, name) for name in [UNTOUCHED[crate], *(edit.function for edit in edits)]]
        ran = subprocess.run(command(crate, names), cwd=folder, stdout=subprocess.PIPE, stderr=subprocess.STDOUT, text=True, errors="replace")
    said = dict(re.findall(r"(?m)^fn (\S+): (.*)$", ran.stdout))
    if not re.search(r"(?m)^only=\d+ proved=\d+$", ran.stdout) or said.get(names[0]) != "proved":
        raise Bad(f"{crate}: it doesn't compile, or isn't proved even where nothing is changed; status {ran.returncode}\n{ran.stdout[-3000:]}")
    return said


def first_ones(edits):
    """The first edit of each function."""
    found = {}
    for edit in edits:
        found.setdefault(edit.function, edit)
    return list(found.values())


def attempt(crate, edits, changed):
    """Tries the edits of a crate in as few runs as they allow; of each whether it is refused, and a line that says so."""
    while edits:
        run = first_ones(edits)
        said = check(crate, run, changed)
        tried = []
        for edit in run:
            verdict = said.get(of_crate(crate, edit.function), "")
            if "it calls `" in verdict and len(run) > 1:
                continue
            tried.append(edit)
            refused = verdict.startswith(("not proved", "no proof")) and "it calls `" not in verdict
            yield refused, f"{edit.name}: refused by {edit.function}" if refused else f"{edit.name}: NOT refused: {edit.function}: {verdict}"
        if not tried:
            raise Bad(f"{crate}: each of these calls another of them: {', '.join(edit.name for edit in run)}")
        edits = [edit for edit in edits if edit not in tried]


def main():
    words = sys.argv[1:]
    changed = "--self-test" not in words
    every = "--all" in words
    names = [word for word in words if not word.startswith("--")] or sorted(path.name for path in HERE.iterdir() if path.is_dir())
    if not {"--all", "--self-test", *names}.issuperset(words) or not set(names).issubset(UNTOUCHED):
        sys.exit(__doc__)

    def count(crate):
        """How many edits of the crate are as they should be, and how many aren't."""
        paths = sorted((HERE / crate).glob("*.edit"))
        edits = None
        right = 0
        try:
            edits = [edit for edit in map(Edit, paths) if every or not edit.is_slow]
            for refused, line in attempt(crate, edits, changed):
                print(line, flush=True)
                right += refused == changed
        except Bad as bad:
            print(f"NOT tried: {bad}", flush=True)
        return right, len(paths if edits is None else edits) - right

    # Two crates at once: with more, each takes more processor time.
    with ThreadPoolExecutor(2) as pool:
        counts = list(pool.map(count, names))
    passed, failed = (sum(column) for column in zip(*counts))
    print(f"{passed} passed, {failed} failed")
    sys.exit(1 if failed else 0)


if __name__ == "__main__":
    main()
