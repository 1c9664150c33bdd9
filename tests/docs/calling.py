#!/usr/bin/env python3
"""Writes docs/CALLING.md: its text, and the contracts of the calls that a caller in Rattle uses, as crates/ has them. `--check` compares.

Usage: calling.py >docs/CALLING.md, or calling.py --check.
"""
import re
import sys
from pathlib import Path

TOP = Path(__file__).resolve().parents[2]
# each file of a crate, and its calls that are quoted
CALLS = [
    ("ill_normal", "single", "normalise"),
    ("ill_normal", "compare", "same_message"),
    ("ill_read", "read", "decode"),
    ("ill_write", "normal", "normal_bytes"),
    ("ill_apdu", "apdu", "from_message"),
]
TEXT = """# Calling illcanon from Rattle

Most callers need `ill_normal` alone: it reads messages and gives their normal forms. `ill_apdu` has APDUs as structs, `ill_write` the normal forms of messages built in code.

## What differs from what one would expect

- A call that may need memory takes an allocator, and out of memory is one of its errors.
- A source is left right after the message. A slice given to `decode`, `decode_normal` or `same_message` must hold one message and nothing else; octets after it are `TrailingBytes`.
- `read_message` and `normalise` return `None` at the end of the input. An input that ends within a message is `Truncated`.
- A refusal counts its offset from the first octet of the message, not of the input.
- Nothing is written for a refused message. If writing fails, the sink has as many octets as the error says.
- A call that takes a `Profile` reads in it; any other reads profile 2. `decode`, `read_message`, `Decoder` and the structs of `ill_apdu` have profile 2 alone.

## A caller

This one, in `crates/example_client`, keeps the normal form of a message in an archive. Its contract is proved from public contracts alone:

```rust
{caller}
```

## Contracts

A clause names an APDU by its number and value (`Apdu`), what octets spell by `SpellsApdu`, and the normal form by `normal_form`; all three are in `ill_schema/specs/Apdu.antt`. The `ghost use` lines of a source file say where its other words are. That a spelling is accepted is a clause of its own (`accepts`): `IfOk` alone would allow a call that always fails.

Some contracts, as the sources have them. `python3 tests/docs/proved.py ill_normal normalise_stream` prints any other.

```text
{contracts}
```
"""


def quoted(crate, file, names):
    """The signature and the contract of each call."""
    source = (TOP / "crates" / crate / "src" / f"{file}.rt").read_text()
    for name in names.split():
        found = re.search(rf"^( *)pub fn {name}\b.*?\n\1\{{$", source, re.S | re.M)
        if found is None:
            sys.exit(f"calling.py: no call {name} in {crate}/src/{file}.rt")
        contract = re.sub(r"\s*//.*", "", found[0][: -1 - len(found[1])])
        head, *clauses = re.split(r"\n\s*(?=requires|ensures)", contract.strip())
        head = re.sub(r"\(\s+", "(", re.sub(r",?\s+\)", ")", re.sub(r"\s+", " ", head.removeprefix("pub "))))
        yield f"{crate}::{head.removeprefix('fn ')}"
        for clause in clauses:
            yield "  " + re.sub(r"\s+", " ", clause).strip()


def caller():
    """The function `archived` of example_client."""
    source = (TOP / "crates/example_client/src/lib.rt").read_text()
    return re.search(r"(/// [^\n]*\n)*pub fn archived.*?\n\}", source, re.S)[0]


def main():
    contracts = "\n".join(line for call in CALLS for line in quoted(*call))
    text = TEXT.replace("{caller}", caller()).replace("{contracts}", contracts)
    page = TOP / "docs/CALLING.md"
    if "--check" not in sys.argv:
        print(text, end="")
    elif page.read_text() != text:
        sys.exit("docs/CALLING.md is out of date: python3 tests/docs/calling.py >docs/CALLING.md")


main()
