#!/usr/bin/env python3
"""Writes the test vectors, vectors/*.json, from the rules in vectors/rules: the same octets each time.

Usage: make.py [--check]. With --check nothing is written, and the status is 1 where a file isn't what the rules give. It is also 1 where
README.md doesn't say how many test vectors there are.
"""
import importlib
import json
import sys
from pathlib import Path

FOLDER = Path(__file__).resolve().parent
sys.path[:0] = [str(FOLDER), str(FOLDER.parent / "tests")]

from model.schema import Schema

THEMES = "identifiers lengths end_marks booleans integers strings dates rows tagging defaults wrappers limits causes worked streams module module_worked json_lines".split()


def books():
    for theme in THEMES:
        yield from importlib.import_module(f"rules.{theme}").books()


def text_of(book):
    """The JSON text of a file: a test vector is a line."""
    groups = ",\n".join(
        f'{{"rule": {dense(group.rule)}, "vectors": [\n' + ",\n".join(map(dense, group.vectors)) + "\n]}" for group in book.groups
    )
    profile = "" if book.profile == "2" else f'"profile": {dense(book.profile)},\n'
    return f'{{"$schema": "schema.json",\n"title": {dense(book.title)},\n{profile}"groups": [\n{groups}\n]}}\n'


def dense(value):
    return json.dumps(value, separators=(", ", ": "))


def phrases(made):
    """What README.md has to say of the numbers of test vectors, of pairs of a book and one of its test vectors."""
    octets = [(book.profile, vector.get("profiles", [book.profile])) for book, vector in made if book.name != "json"]
    lines = [vector["profiles"] for book, vector in made if book.name == "json"]
    own = [profile for profile, _ in octets]
    both = sum("module" in profiles for _, profiles in octets)
    return [
        f"{len(octets):,} test vectors for programs that read",
        f"{own.count('2'):,} of profile 2, and {own.count('module'):,} of the module profile",
        f"This runs {both:,}:",
        f"{len(lines):,} more",
        f"{sum('2' in profiles for profiles in lines):,} run, and {sum('module' in profiles for profiles in lines):,} with",
    ]


def main():
    wrong, names, made = 0, set(), []
    schema = Schema(json.loads((FOLDER / "schema.json").read_text()))
    for book in books():
        text, file = text_of(book), FOLDER / f"{book.name}.json"
        fault = schema.fault(json.loads(text))
        assert not fault, f"{book.name}: {fault}"
        for vector in book.vectors():
            assert vector["id"] not in names, vector["id"]
            names.add(vector["id"])
        print(f"{book.name}: {len(book.vectors())} test vectors of {len(book.groups)} rules, {len(text)} octets")
        made += [(book, vector) for vector in book.vectors()]
        if "--check" not in sys.argv:
            file.write_text(text)
        elif not file.exists() or file.read_text() != text:
            wrong += 1
            print(f"{file.name} isn't what the rules give; run vectors/make.py")
    readme = (FOLDER / "README.md").read_text()
    for phrase in phrases(made):
        if phrase not in readme:
            wrong += 1
            print(f"README.md has to say: {phrase}")
    print(f"{len(made)} test vectors")
    sys.exit(1 if wrong else 0)


if __name__ == "__main__":
    main()
