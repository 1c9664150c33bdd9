#!/usr/bin/env python3
"""Instructions and nanoseconds of processor time a message, of programs that read the same messages. Needs valgrind, and nothing else at work.

Usage: compare.py COMMAND..: each is one word, with IN for the file of messages, as 'crates/illcanon/out/illcanon check IN'. Prints a line for each
kind of message: instructions by callgrind, without the start of the program, and time, the least of nine runs.
"""
import os
import re
import subprocess
import sys
import tempfile
from pathlib import Path

EXPIRED = bytes.fromhex("741f301d800102a10aa1031b0147a2031b0151a20ca00a80083230323430323239")
REQUEST = (Path(__file__).resolve().parents[2] / "examples/every-part.ber").read_bytes()[:713]
CALLGRIND = ("valgrind", "--tool=callgrind", "--callgrind-out-file=/dev/null")
ROUNDS = 9


def indefinite(octets):
    """These elements, whose lengths are definite, with each constructed one in indefinite form."""
    spelled, at = b"", 0
    while at < len(octets):
        start, at = at, at + 1
        if octets[start] & 31 == 31:
            at = next(i for i in range(at, len(octets)) if octets[i] < 128) + 1
        identifier, size, at = octets[start:at], octets[at], at + 1
        if size & 128:
            size, at = int.from_bytes(octets[at : at + size - 128], "big"), at + size - 128
        end = at + size
        spelled += identifier + b"\x80" + indefinite(octets[at:end]) + b"\0\0" if identifier[0] & 32 else octets[start:end]
        at = end
    return spelled


def run(words):
    """What a program writes on standard error, and its nanoseconds of processor time."""
    with tempfile.TemporaryFile() as errors:
        _, status, used = os.wait4(subprocess.Popen(words, stdout=subprocess.DEVNULL, stderr=errors).pid, 0)
        if os.waitstatus_to_exitcode(status) not in (0, 1):
            raise SystemExit(f"{words}: status {status}")
        errors.seek(0)
        return errors.read().decode(), (used.ru_utime + used.ru_stime) * 1e9


def instructions(words):
    return int(re.search(r"refs:\s*([\d,]+)", run((*CALLGRIND, *words))[0]).group(1).replace(",", ""))


with tempfile.TemporaryDirectory() as folder:
    for octets, few in (EXPIRED, 2000), (indefinite(EXPIRED), 2000), (REQUEST, 200), (indefinite(REQUEST), 200):
        files = {count: Path(folder, str(count)) for count in (few, 2 * few, 250 * few)}
        for count, file in files.items():
            file.write_bytes(octets * count)
        on = [{count: [str(file) if w == "IN" else w for w in c.split()] for count, file in files.items()} for c in sys.argv[1:]]
        counts = [(instructions(words[2 * few]) - instructions(words[few])) // few for words in on]
        times = zip(*[[run(words[250 * few])[1] for words in on] for _ in range(ROUNDS)])
        print(f"{len(octets)} octets: ", *(f"{c:,} ({min(t) / (250 * few):,.0f} ns)" for c, t in zip(counts, times)), sep=" | ", flush=True)
