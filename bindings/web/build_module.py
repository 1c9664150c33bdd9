#!/usr/bin/env python3
"""Makes build/illcanon.wasm of the proved crate ill_c, and build/proof.txt, the prover's line for it.

  1. `rattle build` proves the crate, and hands its LLVM module to the clang of --toolchain: here a script that keeps the module.
  2. In the module's text the target triple and the data layout are replaced, and the attributes that name x86-64 are left out.
  3. The kit's clang compiles it and src/ for wasm64, and the kit's lld links them.
  4. `wasm-opt --memory64-lowering` makes addresses 32 bits, for browsers without 64-bit memories.

It stops at a data layout, an attribute, an instruction or a function that it doesn't know. It needs the Rattle kit (`rt` in PATH), and
`wasm-opt` and `wasm-validate` (Debian: binaryen, wabt). The libraries below the crate have to be built, which `rt lib` does.
"""
import hashlib
import os
import re
import shutil
import subprocess
import sys
import tempfile
from pathlib import Path

HERE = Path(__file__).resolve().parent
ROOT = HERE.parents[1]
CRATE = ROOT / "crates/ill_c"
BUILD = HERE / "build"

SOURCES = "memory wide".split()
CALLS = "normalise_as check_as same_as show_as json_as build_as build_with_defaults digest_as normalise_next_as dump_as frame".split()
TRIPLE = "wasm64-unknown-unknown"
LAYOUT = "e-m:e-p:64:64-p10:8:8-p20:8:8-i64:64-i128:128-n32:64-S128-ni:1:10:20"
# What the back end writes for x86-64. Sizes and alignments are the same in both layouts.
X86_LAYOUT = "e-m:e-p270:32:32-p271:32:32-p272:64:64-i64:64-i128:128-f80:128-n8:16:32:64-S128"
X86_ATTRIBUTES = {"probe-stack", "stack-probe-size", "target-cpu", "target-features"}
# Attributes of LLVM that say the same for every processor.
ATTRIBUTES = set(
    "alwaysinline cold inlinehint memory mustprogress nobuiltin noinline noreturn nosync nounwind willreturn nofree norecurse noalias nocallback "
    "speculatable nonlazybind uwtable minsize optsize allockind allocsize alloc-family convergent hot returns_twice "
    "nocreateundeforpoison".split()
)
# Words of LLVM's text whose meaning depends on the processor, or that src/ and one thread don't give.
UNKNOWN_WORDS = "asm llvm.x86 x86_fp80 x86_mmx fp80 thread_local musttail invoke addrspace cmpxchg atomicrmw fence".split()
# The functions that src/memory.c has, besides LLVM's own intrinsics.
FUNCTIONS = re.compile(r"llvm\.(?!x86)[\w.]+|rattle_(alloc|realloc|dealloc)|mem(cmp|cpy|move|set)|bcmp")
CODE = "-mcpu=mvp -mbulk-memory -mmutable-globals -msign-ext -mnontrapping-fptoint".split()
FEATURES = "--enable-memory64 --enable-bulk-memory --enable-mutable-globals --enable-sign-ext --enable-nontrapping-float-to-int".split()

KEEPER = """#!/bin/sh
# Keeps the LLVM module that is to be compiled, and compiles it.
for word in "$@"; do case "$word" in *.bc) {cp} "$word" "{kept}" ;; esac; done
exec "{clang}" "$@"
"""


class Unknown(Exception):
    """Text of the module that this script doesn't know."""


def run(*words, **how):
    done = subprocess.run([str(word) for word in words], capture_output=True, text=True, **how)
    if done.returncode:
        sys.exit(f"{words[0]} failed:\n{done.stdout[-4000:]}{done.stderr[-4000:]}")
    return done.stdout + done.stderr


def kit():
    return Path(run("rt", "doc").split()[0]).resolve().parent


def dependencies():
    """The libraries of each crate of crates.txt."""
    found = {}
    for line in (ROOT / "crates.txt").read_text().splitlines():
        name, colon, libraries = line.partition(":")
        if colon and not line.startswith("#"):
            found[name.split()[0]] = libraries.split()
    return found


def library_words(at):
    """The words of `rattle build` for the libraries of the crate, and for those below them."""
    graph, words, below = dependencies(), [], []
    todo = list(graph[CRATE.name])
    while todo:
        name = todo.pop()
        if name in graph and name not in below:
            below.append(name)
            todo += graph[name]
    for name in graph[CRATE.name]:
        library = ROOT / f"crates/{name}/out/rlib/{name}.rlib" if name in graph else at / f"rlibs/{name}.rlib"
        words += ["--extern", f"{name}={library}"]
    words += ["--extern", f"std={at}/rlibs/std.rlib", "-L", f"dependency={at}/rlibs"]
    for name in sorted(below):
        words += ["-L", f"dependency={ROOT}/crates/{name}/out/rlib"]
    return words


def keeping_toolchain(at, room, kept):
    """A toolchain in the room that is the kit's, and whose clang keeps the LLVM module."""
    tools = room / "toolchain"
    (tools / "bin").mkdir(parents=True)
    os.symlink(at / "toolchain/lib", tools / "lib")
    for name in os.listdir(at / "toolchain/bin"):
        if name != "clang":
            os.symlink(at / "toolchain/bin" / name, tools / "bin" / name)
    clang = tools / "bin/clang"
    clang.write_text(KEEPER.format(cp=shutil.which("cp"), kept=kept, clang=at / "toolchain/bin/clang"))
    clang.chmod(0o755)
    return tools


def proved_module(at, room):
    """The LLVM module of the crate for x86-64, once it is proved, and the prover's line."""
    kept = room / "module.bc"
    said = run(
        at / "bin/rattle", "build", "--crate-name", CRATE.name, "src/lib.rt", "--crate-type", "staticlib", *library_words(at),
        "--links", f"{CRATE.name}=", "--cpu", "x86-64", "--antt-project", at / "rattle/logic/antt-project.json",
        "--logic-built", at / "logic_built", "--incremental", "out/incremental", "--toolchain", keeping_toolchain(at, room, kept),
        "-o", room / f"lib{CRATE.name}.a", cwd=CRATE)
    proof = re.search(r"(?m)^logic=proved .*$", said)
    if not proof or not kept.exists():
        sys.exit(f"rattle build made no module:\n{said[-4000:]}")
    return kept, proof[0]


def without_strings(text):
    return re.sub(r'"(?:[^"\\]|\\.)*"', '""', text)


def check_attributes(text):
    """Stops where a group of attributes has one that isn't known."""
    for group in re.findall(r"(?m)^attributes #\d+ = \{(.*)\}$", text):
        for name in re.findall(r'"([\w-]+)"(?:="[^"]*")?', group):
            if name not in ATTRIBUTES:
                raise Unknown(f"the attribute {name}")
        for name in re.findall(r"[a-z_]+(?=\s|\(|$)", re.sub(r"\([^)]*\)", "", without_strings(group))):
            if name not in ATTRIBUTES:
                raise Unknown(f"the attribute {name}")


def check_words(text):
    """Stops where the text has a word, or declares a function, that isn't known."""
    plain = without_strings(re.sub(r"(?m)^\s*;.*$", "", text))
    for word in UNKNOWN_WORDS:
        if re.search(rf"(?<![\w.@%]){re.escape(word)}\b", plain) or (word.startswith("llvm.") and word in plain):
            raise Unknown(f"the word {word}")
    for name in re.findall(r"(?m)^declare [^@]*@([\w.]+)\(", text):
        if not FUNCTIONS.fullmatch(name):
            raise Unknown(f"the function {name}")


def retargeted(text):
    """The text of the module for wasm64. It stops at what isn't known to be the same there."""
    layout, triple = (re.findall(rf'(?m)^target {word} = "(.*)"$', text) for word in ("datalayout", "triple"))
    if layout != [X86_LAYOUT] or len(triple) != 1:
        raise Unknown(f"the layout {layout}, the triple {triple}")
    text = text.replace(f'target datalayout = "{X86_LAYOUT}"', f'target datalayout = "{LAYOUT}"')
    text = text.replace(f'target triple = "{triple[0]}"', f'target triple = "{TRIPLE}"')
    for name in X86_ATTRIBUTES:
        text = re.sub(rf' "{name}"="[^"]*"', "", text)
    check_attributes(text)
    check_words(text)
    return text


def number_at(octets, at):
    """The unsigned LEB128 number there, and where it ends."""
    value, shift = 0, 0
    while True:
        octet = octets[at]
        value |= (octet & 0x7F) << shift
        at, shift = at + 1, shift + 7
        if octet < 0x80:
            return value, at


def without_table(module):
    """The module without its empty table of functions, whose 64-bit indices Debian's wasm-opt can't read. Where something uses the table,
    the module without it is invalid, and wasm-opt refuses it."""
    kept, at = module[:8], 8
    while at < len(module):
        size, begin = number_at(module, at + 1)
        if module[at] != 4:
            kept += module[at : begin + size]
        at = begin + size
    return kept


def compiled(at, room, module):
    """The objects of the module and of src/ for wasm64."""
    clang, target = at / "toolchain/bin/clang", [f"--target={TRIPLE}", *CODE]
    text = run(clang, "--target=x86_64-unknown-linux-gnu", "-S", "-emit-llvm", "-Xclang", "-disable-llvm-passes", "-x", "ir", module,
               "-o", "-")
    try:
        (room / "wasm64.ll").write_text(retargeted(text))
    except Unknown as error:
        sys.exit(f"build_module.py: {error} of the LLVM module is not known: find out whether it means the same for wasm64")
    run(clang, *target, "-O3", "-Werror", "-c", "-x", "ir", room / "wasm64.ll", "-o", room / "ill_c.o")
    for name in SOURCES:
        run(clang, *target, "-O2", "-ffreestanding", "-fno-builtin", "-nostdinc", "-Wall", "-Wextra", "-Werror", "-c", HERE / f"src/{name}.c",
            "-o", room / f"{name}.o")
    return [room / f"{name}.o" for name in ("ill_c", *SOURCES)]


def linked(at, room, objects):
    """The module for browsers, with 32-bit addresses. The stack is below the data, so that an overflow traps."""
    os.symlink(at / "toolchain/bin/clang", room / "wasm-ld")
    run(room / "wasm-ld", "-mwasm64", "--no-entry", "--stack-first", "-z", "stack-size=1048576", "--gc-sections", "--fatal-warnings",
        "--strip-all", *[f"--export=illcanon_{call}" for call in CALLS], *objects, "-o", room / "linked.wasm")
    (room / "plain.wasm").write_bytes(without_table((room / "linked.wasm").read_bytes()))
    run("wasm-opt", *FEATURES, "--memory64-lowering", "--strip-target-features", "-O2", "--strip-producers", room / "plain.wasm",
        "-o", room / "illcanon.wasm")
    run("wasm-validate", room / "illcanon.wasm")
    return room / "illcanon.wasm"


def main():
    BUILD.mkdir(exist_ok=True)
    with tempfile.TemporaryDirectory() as folder:
        room, at = Path(folder), kit()
        module, proof = proved_module(at, room)
        made = linked(at, room, compiled(at, room, module)).read_bytes()
    (BUILD / "illcanon.wasm").write_bytes(made)
    (BUILD / "proof.txt").write_text(f"{proof}\n")
    print(f"{hashlib.sha256(made).hexdigest()}  build/illcanon.wasm, {len(made):,} octets")


if __name__ == "__main__":
    main()
