#!/usr/bin/env python3
"""The line of `--summary` on a terminal that says how far the work is, by a pseudo-terminal.

The program reads a slow pipe, with standard error at a pseudo-terminal. The line comes after two seconds and not before, is written over
itself, never ends in a line feed, and is erased before the line of a fault and before the summary. Where the size of a pipe is not known, it
has no share, even if the other files have sizes. Without `--summary`, and where standard error is no terminal, nothing is shown. Needs the
program built. Takes about fifteen seconds.
"""
import os
import pty
import re
import subprocess
import sys
import tempfile
import threading
import time
from pathlib import Path

sys.path.insert(0, str(Path(__file__).resolve().parents[1]))

from model.tables import PROGRAM

# an EXPIRED in normal form, and a message that is refused after its two octets
EXPIRED = bytes.fromhex("741f301d800102a10aa1031b0147a2031b0151a20ca00a80083230323430323239")
REFUSED = bytes.fromhex("7400")
ERASE = "\r\x1b[K"
FAULT = "illcanon: refused at 2 in message {}: Missing Expired.protocol-version-num\r\n"


def expect(condition, *what):
    if not condition:
        print("progress.py:", *what)
        sys.exit(1)


def feed(pipe, pieces, pause):
    with pipe:
        for piece in pieces:
            time.sleep(pause)
            pipe.write(piece)
            pipe.flush()


def run(words, pieces, pause, terminal=True):
    """What comes to standard error, each part with the seconds since the start, and the status."""
    master, slave = pty.openpty() if terminal else os.pipe()
    start = time.monotonic()
    program = subprocess.Popen([PROGRAM, *words], stdin=subprocess.PIPE, stdout=subprocess.DEVNULL, stderr=slave)
    os.close(slave)
    feeder = threading.Thread(target=feed, args=(program.stdin, pieces, pause))
    feeder.start()
    parts = []
    while True:
        try:
            part = os.read(master, 4096)
        except OSError:
            break
        if not part:
            break
        parts.append((time.monotonic() - start, part.decode()))
    os.close(master)
    feeder.join()
    return parts, program.wait()


def check_end_of_file():
    """The line is erased where a refusal ends the work on a pipe; and with a pipe among the inputs there is no share."""
    with tempfile.NamedTemporaryFile() as file:
        file.write(EXPIRED)
        file.flush()
        parts, status = run(["check", "--summary", "-", file.name], [EXPIRED] * 11 + [REFUSED], 0.25)
    text = "".join(part for _, part in parts)
    expect(status == 1 and parts[0][0] >= 2, "status", status, "and a line after", parts[0][0], "seconds")
    fault = FAULT.format(12).replace("illcanon: ", "illcanon: -: ") + "illcanon: -: stopped at message 12 (octet 363)\r\n"
    expect(text.count(ERASE + fault) == 1, "no line of the fault in", repr(text))
    rest = text.replace(fault, "").rpartition("illcanon: 2 files, ")[0]
    expect(re.fullmatch(f"({re.escape(ERASE)}(illcanon: [12] files?, [0-9]+ octets)?)+", rest), "other text:", repr(text))


def main():
    pieces = [EXPIRED] * 12 + [REFUSED] + [EXPIRED] * 3
    words = ["check", "--summary", "--keep-going", "-"]
    parts, status = run(words, pieces, 0.25)
    text = "".join(part for _, part in parts)
    expect(status == 1, "status", status)
    expect(parts[0][0] >= 2, "a line after", parts[0][0], "seconds")
    summary = "illcanon: 1 file, 16 messages, 15 normal, 0 not normal, 1 refused (0 not read, 1 invalid), 497 octets\r\n"
    expect(text.endswith(ERASE + summary), "no summary at the end of", repr(text))
    expect(ERASE + FAULT.format(13) in text, "no line of the fault in", repr(text))
    rest = text.removesuffix(summary).replace(FAULT.format(13), "")
    expect(re.fullmatch(f"({re.escape(ERASE)}(illcanon: 1 file, [0-9]+ octets)?)+", rest), "other text:", repr(text))
    octets = [int(count) for count in re.findall(r"1 file, ([0-9]+) octets\r\x1b", rest)]
    expect(len(octets) >= 4 and octets == sorted(set(octets)), "the lines have", octets)
    expect(set(octets) <= {33 * n for n in range(13)} | {398 + 33 * n for n in range(4)}, "the lines have", octets)

    check_end_of_file()
    quick, _ = run(words, [EXPIRED] * 3, 0.1)
    expect("".join(part for _, part in quick) == summary.replace("16 messages, 15", "3 messages, 3").replace("1 refused (0 not read, 1 invalid), 497", "0 refused, 99"), quick)
    piped, _ = run(words, pieces, 0.25, terminal=False)
    expect("".join(part for _, part in piped) == (FAULT.format(13) + summary).replace("\r", ""), piped)
    plain, _ = run(["check", "-"], [EXPIRED] * 12, 0.25)
    expect(plain == [], plain)
    print(f"progress.py: {len(octets)} lines, the first after {parts[0][0]:.1f} seconds")


main()
