#!/usr/bin/env python3
"""Asks the program line by line, and compares `--lines` with files of octets.

A process is asked 10,000 times and must answer each line before it gets the next one; random lines, good and bad, have the results that
each has by itself; the normal forms and digests of lines are those of the same messages as octets, and what `check` and the refusals say is
what the program prints of a file that holds the message alone; and GNU parallel over four processes gives what one process gives, where it
is installed. With `--whole` one bad line leaves OUT as it was. Needs the program built.
Usage: lines.py [SEED [COUNT [PROFILE]]], PROFILE being `2`, the default, or `module`. Prints the seed, with which a run is made again.
"""
import random
import shutil
import subprocess
import sys
import tempfile
from pathlib import Path

sys.path.insert(0, str(Path(__file__).resolve().parents[1]))

from model.encoder import Speller
from model.tables import PROGRAM, ROOTS, profile_and_words, random_value, seed_and_count

JOBS = {"canonicalise": ["canonicalise", "--lines", "-", "-"], "check": ["check", "--lines", "-"], "digest": ["digest", "--lines", "-"]}
PROFILE, PROFILE_WORDS = profile_and_words()


def called(words):
    """The program with these words, in the profile of the run."""
    return [PROGRAM, words[0], *PROFILE_WORDS, *words[1:]]


def run(words, octets=b""):
    done = subprocess.run(called(words), input=octets, capture_output=True, check=False)
    return done.returncode, done.stdout, done.stderr


def expect(condition, *what):
    if not condition:
        print("lines.py:", *what)
        sys.exit(1)


def spelled(chance):
    """A random message, sometimes changed at a random octet."""
    root = ROOTS[PROFILE]
    octets = bytearray(Speller(chance).value(root, random_value(chance, root), None))
    if chance.random() < 0.3:
        octets[chance.randrange(len(octets))] ^= 1 << chance.randrange(8)
    return bytes(octets)


def alone(octets, folder):
    """What the program writes, or says, of a file with this message alone."""
    path = Path(folder) / "one"
    path.write_bytes(octets)
    results = {}
    for job, words in {"canonicalise": ["canonicalise", path, "-"], "check": ["check", path], "digest": ["digest", path]}.items():
        status, output, errors = run(words)
        if errors:
            results[job] = errors.decode().removeprefix("illcanon: ").replace(" in message 1", "").strip()
        elif job == "canonicalise":
            results[job] = output.hex()
        elif job == "check":
            results[job] = output.decode().removeprefix("message 1: ").strip()
        else:
            results[job] = output.decode().split(" ")[0]
    return results


def compare(chance, count):
    """Each line's result is that of the message alone. A line is one message: what follows one is refused as TrailingBytes."""
    lines, wanted = [], {job: [] for job in JOBS}
    with tempfile.TemporaryDirectory() as folder:
        for _ in range(count):
            octets = spelled(chance)
            results = alone(octets, folder)
            if "in message 2" in results["check"]:
                continue
            lines.append(octets.hex())
            for job in JOBS:
                wanted[job].append(results[job])
    text = "".join(line + "\n" for line in lines).encode()
    for job, words in JOBS.items():
        status, output, errors = run(words, text)
        expect(not errors and status in (0, 1), job, status, errors)
        found = output.decode().splitlines()
        expect(len(found) == len(lines), job, len(found), "results of", len(lines), "lines")
        for line, result, want in zip(lines, found, wanted[job]):
            expect(result == want, job, line, result, "and not", want)
    return text


def whole(text):
    """With `--whole` OUT is the lines of the normal forms, or stays as it was where one line is bad, and a line says so."""
    with tempfile.TemporaryDirectory() as folder:
        given, out = Path(folder) / "given", Path(folder) / "OUT"
        out.write_bytes(b"before\n")
        given.write_bytes(text)
        words = ["canonicalise", "--lines", "--whole", given, out]
        status, output, errors = run(words)
        expect((status, output, errors) == (1, b"", f"illcanon: {out} stays as it was: not every line is a message\n".encode()), "--whole", status, errors)
        expect(out.read_bytes() == b"before\n" and sorted(Path(folder).iterdir()) == [out, given], "--whole: OUT is not what it was, or a file is left")
        _, answers, _ = run(JOBS["canonicalise"], text)
        good = [line for line in answers.splitlines(keepends=True) if not line.startswith(b"refused")]
        given.write_bytes(b"".join(good))
        expect(run(words) == (0, b"", b"") and out.read_bytes() == b"".join(good), "--whole of normal forms")


def ask(chance, count):
    """A process answers each line before it gets the next one."""
    lines = [spelled(chance).hex() for _ in range(50)] + ["", "7g", "74 1"]
    answers = {}
    for line in lines:
        status, output, errors = run(JOBS["canonicalise"], line.encode() + b"\n")
        answers[line] = output
    process = subprocess.Popen(called(JOBS["canonicalise"]), stdin=subprocess.PIPE, stdout=subprocess.PIPE, bufsize=0)
    for _ in range(count):
        line = chance.choice(lines)
        process.stdin.write(line.encode() + b"\n")
        answer = b""
        while not answer.endswith(b"\n"):
            more = process.stdout.read(65536)
            expect(more, "the process has ended")
            answer += more
        expect(answer == answers[line], line, answer)
    process.stdin.close()
    expect(process.wait(timeout=10) == 1, "status")


def in_parallel(text):
    if not shutil.which("parallel"):
        print("GNU parallel is not installed: skipped")
        return
    for words in JOBS.values():
        done = subprocess.run(["parallel", "--will-cite", "--pipe", "-k", "-j4", "--block", "10k", *called(words)], input=text, capture_output=True, check=False)
        expect(done.stdout == run(words, text)[1], "four processes give another output", *words)


def main():
    seed, count = seed_and_count()
    count = min(count, 500)
    chance = random.Random(seed)
    text = compare(chance, count)
    whole(text)
    ask(chance, 10_000)
    in_parallel(text * 20)
    print(f"seed {seed}, profile {PROFILE}: {count} lines as files, and 10,000 questions, all right")


if __name__ == "__main__":
    main()
