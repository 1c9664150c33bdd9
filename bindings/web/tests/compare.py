#!/usr/bin/env python3
"""Compares the module with the test vectors and with the native library: compare.py [--browser NAME] [--module FILE] [--small]

With no browser (chromium, firefox) it runs in Node. The native library is bindings/c/build/libillcanon.so. --small leaves out test vectors
of more than 100,000 octets. The status is 0 if nothing differs.
"""
import argparse
import json
import subprocess
import sys
from pathlib import Path

from native import Native
from vectors import MOST_AGAIN, agrees, expected, size_of, tests

HERE = Path(__file__).resolve().parent
LIBRARY = HERE.parents[1] / "c/build/libillcanon.so"
MODULE = HERE.parent / "build/illcanon.wasm"


def answers_in_node(module, chosen):
    done = subprocess.run(["node", HERE / "node_answers.mjs", module], input="".join(f"{json.dumps(test)}\n" for test in chosen),
                          capture_output=True, text=True)
    if done.returncode:
        sys.exit(f"node ended with {done.returncode}:\n{done.stderr[-2000:]}")
    print(done.stderr.strip())
    return [json.loads(line) for line in done.stdout.splitlines()]


def answers_in_browser(name, chosen):
    from browser import answers_in

    return answers_in(name, chosen)


def report(what, wrong):
    for test, got, wanted in wrong[:5]:
        print(f"{test['vector']['id']} in profile {test['profile']}:\n  got    {got[:400]}\n  wanted {wanted[:400]}")
    return f"{len(wrong)} differ from {what}"


def main():
    words = argparse.ArgumentParser()
    words.add_argument("--browser", choices=["chromium", "firefox"])
    words.add_argument("--module", type=Path, default=MODULE)
    words.add_argument("--small", action="store_true")
    given = words.parse_args()
    chosen = [test for test in tests() if not given.small or size_of(test["vector"]) <= MOST_AGAIN]
    got = answers_in_browser(given.browser, chosen) if given.browser else answers_in_node(given.module, chosen)
    if len(got) != len(chosen):
        sys.exit(f"{len(chosen)} test vectors, {len(got)} answers")
    native = Native(LIBRARY)
    first = [(test, line[0], wanted) for test, line in zip(chosen, got) if not agrees(line[0], wanted := expected(test))]
    second = [(test, line[1], wanted) for test, line in zip(chosen, got) if line[1] != (wanted := native.texts(test))]
    print(f"{len(chosen)} test vectors in {given.browser or 'Node'}: {report('the test vectors', first)}, {report('the native library', second)}")
    return bool(first or second)


if __name__ == "__main__":
    sys.exit(main())
