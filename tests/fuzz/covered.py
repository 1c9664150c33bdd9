#!/usr/bin/env python3
"""Makes an archive of the calls for C that counts which of its code is run: covered.py OUT.a [MODULE]

`rattle build` proves the crate ill_c and makes its LLVM module, as for bindings/web/build_module.py, which says what it needs. The kit's clang
compiles the module with the counters that libFuzzer reads, and with the checks of the address sanitizer. MODULE is compiled in its place where
it is named: bitcode or text of LLVM that has the calls.
"""
import re
import sys
import tempfile
from pathlib import Path

sys.path.insert(0, str(Path(__file__).resolve().parents[2] / "bindings/web"))
sys.dont_write_bytecode = True
from build_module import kit, proved_module, run

COUNTED = ["-fsanitize=fuzzer-no-link,address", "-Wno-override-module"]


def checked(text):
    """The text of a module each of whose functions is checked by the address sanitizer."""
    groups = set(re.findall(r"(?m)^define [^{]* #(\d+)", text))
    bare = [line for line in re.findall(r"(?m)^define .*$", text) if not re.search(r" #\d+", line)]
    if bare:
        sys.exit(f"covered.py: {len(bare)} functions have no attributes, such as {bare[0]}")
    return re.sub(r"(?m)^(attributes #(\d+) = \{)", lambda group: f"{group[1]} sanitize_address" if group[2] in groups else group[1], text)


def main():
    if len(sys.argv) not in (2, 3):
        sys.exit(__doc__)
    with tempfile.TemporaryDirectory() as folder:
        room, at = Path(folder), kit()
        clang = at / "toolchain/bin/clang"
        module = Path(sys.argv[2]) if len(sys.argv) == 3 else proved_module(at, room)[0]
        text = run(clang, "-S", "-emit-llvm", "-Xclang", "-disable-llvm-passes", "-Wno-override-module", "-x", "ir", module, "-o", "-")
        (room / "checked.ll").write_text(checked(text))
        run(clang, "-O1", "-fPIC", *COUNTED, "-c", "-x", "ir", room / "checked.ll", "-o", room / "ill_c.o")
        Path(sys.argv[1]).unlink(missing_ok=True)
        run("ar", "rcs", sys.argv[1], room / "ill_c.o")


if __name__ == "__main__":
    main()
