#!/usr/bin/env python3
"""Writes inputs to begin with to a folder: seeds.py FOLDER. They are the messages of examples/ and the octets of the test vectors of vectors/,
those of up to 4,096 octets, each in a file that is named by its SHA-256."""
import hashlib
import json
import sys
from pathlib import Path

ROOT = Path(__file__).resolve().parents[2]
MOST = 4096


def octets():
    for path in sorted((ROOT / "examples").glob("*.[bd]er")):
        yield path.read_bytes()
    for path in sorted((ROOT / "vectors").glob("*.json")):
        for group in json.loads(path.read_text(encoding="utf-8")).get("groups", []):
            for vector in group["vectors"]:
                if "octets" in vector:
                    yield bytes.fromhex(vector["octets"])


def main():
    folder = Path(sys.argv[1])
    folder.mkdir(parents=True, exist_ok=True)
    for it in octets():
        if 0 < len(it) <= MOST:
            (folder / hashlib.sha256(it).hexdigest()).write_bytes(it)


if __name__ == "__main__":
    main()
