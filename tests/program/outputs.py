#!/usr/bin/env python3
"""Makes the k-th of each system call of the built program fail, refuses the k-th request for memory, and kills the program at its k-th system
call, and looks at its files.

Usage: tests/program/outputs.py [PROGRAM]

Needs strace, and cc for memory. OUT and R, the file of `--refused`, are each what they were or the whole new file, and no new file is left beside them where the
program ends by itself (apart from the one whose removal is the call that fails). With status 0 or 1 all is as without a fault. With status 3
they are what they were, but for three cases: one of several inputs can't be opened, which doesn't stop the others, so the files are those of
the others; R can't be written or replaced after OUT was; the line of JSON at the end can't be written after R was replaced. Other statuses
are 2 where the program ends with it without a fault, and 127 of a program that the system can't load. Then file systems in memory that are
full, where they can be mounted. The last line is 'N passed, M failed'.
"""
import json
import os
import pathlib
import re
import shutil
import signal
import subprocess
import sys
import tempfile
import threading
from concurrent.futures import ThreadPoolExecutor

ROOT = pathlib.Path(__file__).resolve().parents[2]
PROGRAM = pathlib.Path(sys.argv[1] if len(sys.argv) > 1 else ROOT / "crates/illcanon/out/illcanon").resolve()
GOOD = (ROOT / "examples/expired-long-form.ber").read_bytes()
BAD = b"t\0"
# Each call with the errors that it is made to return. A new file that can't be made for EACCES is written directly. The system's brk has no
# error: it returns where the memory ends, so here one that is below what was asked for.
CALLS = [("openat", "EACCES"), ("openat", "ENOSPC"), ("openat", "EMFILE"), ("open", "EACCES"), ("read", "EIO"), ("write", "ENOSPC"), ("fsync", "EIO"), ("fchmod", "EPERM"),
         ("fchmod", "EIO"), ("fchown", "EPERM"), ("fchown", "EDQUOT"), ("rename", "EPERM"), ("renameat", "EPERM"), ("unlink", "EPERM"), ("unlinkat", "EPERM"),
         ("statx", "EIO"), ("newfstatat", "EIO"), ("fstat", "EIO"), ("readlink", "EIO"), ("readlinkat", "EIO"), ("close", "EIO"), ("mmap", "ENOMEM"), ("brk", "0"),
         ("ioctl", "ENOTTY")]
LINE = json.dumps({"apdu": "Expired", "value": {
    "protocol-version-num": 2, "transaction-id": {"transaction-group-qualifier": {"general": "G"}, "transaction-qualifier": {"general": "Q"}},
    "service-date-time": {"date-time-of-this-service": {"date": "20240229"}}}}).encode() + b"\n"
INPUTS = {"json": LINE * 300 + b"{}\n" + LINE, "good": GOOD * 300, "bad": GOOD * 2 + BAD + GOOD, "lines": (GOOD.hex() + "\n").encode() * 3, "list": b"good\0bad\0", "empty": b""}
# Words, and the files that are new at the end.
COMMANDS = [
    ("canonicalise good OUT", "OUT"), ("canonicalise bad OUT", "OUT"), ("canonicalise --keep-going bad OUT", "OUT"), ("canonicalise --whole good OUT", "OUT"),
    ("canonicalise --whole bad OUT", ""), ("canonicalise --lines lines OUT", "OUT"), ("canonicalise --whole --keep-going -o OUT good bad", ""),
    ("canonicalise -o OUT good bad absent", "OUT"), ("canonicalise --keep-going --refused R bad OUT", "OUT R"),
    ("canonicalise --keep-going --refused R -o OUT good bad", "OUT R"), ("canonicalise --keep-going --refused R -o OUT --files-from list", "OUT R"),
    ("canonicalise --whole --keep-going --refused R bad OUT", "R"), ("canonicalise --keep-going --max-refused 1 --refused R -o OUT bad good", "OUT R"),
    ("check --keep-going --refused R bad", "R"), ("check --keep-going --refused R good bad", "R"), ("check --json --keep-going --refused R bad", "R"),
    ("check --json --summary --keep-going --refused R bad", "R"), ("digest --json --keep-going --refused R good bad", "R"), ("show --keep-going --refused R bad", "R"),
    ("show --json --summary --keep-going --refused R bad", "R"), ("canonicalise --keep-going --refused R -o OUT --files-from empty", ""),
    ("check --keep-going --refused R --files-from empty", ""),
    ("build json OUT", "OUT"), ("build --lines json OUT", "OUT"), ("build --whole json OUT", ""), ("build --keep-going --refused R -o OUT json absent", "OUT R"),
]
FILES = ("OUT", "R")
OLD = {"OUT": b"what was there\n", "R": b"refused before\n"}
ABSENT = {"OUT": None, "R": None}
passed = failed = 0
lock = threading.Lock()


def folder(old):
    path = pathlib.Path(tempfile.mkdtemp())
    for name, octets in [*INPUTS.items(), *old.items()]:
        if octets is not None:
            (path / name).write_bytes(octets)
            (path / name).chmod(0o640)
    return path


def files_of(path):
    return {name: (path / name).read_bytes() if (path / name).exists() else None for name in FILES}


def judge(name, right, why):
    global passed, failed
    with lock:
        if right:
            passed += 1
        else:
            failed += 1
            print(f"failed: {name}: {why}")


def run(words, old, *inject, lacking=None, **environment):
    """The status, the lines of faults, the files, what new files are left, and whether a fault was injected. An input may be lacking."""
    path = folder(old)
    if lacking:
        (path / lacking).unlink()
    trace = path / "trace"
    before = ["strace", "-o", trace, *inject] if inject else []
    done = subprocess.run([*before, PROGRAM, *words.split()], cwd=path, capture_output=True, env={**os.environ, **environment})
    injected = trace.exists() and "INJECTED" in trace.read_text(errors="replace")
    found, parts = files_of(path), sorted(p.name for p in path.iterdir() if ".part" in p.name)
    shutil.rmtree(path)
    return done.returncode, done.stderr.decode(errors="replace"), found, parts, injected


def is_allowed(words, call, status, errors, found, old, whole, others):
    """Whether the files may be so where the program ended with this status."""
    wanted, new = whole
    if status == wanted and status in (0, 1):
        return found == new
    if status == 3:
        is_end = "--json --summary" in words and call == "write" and found == new
        is_late = found["R"] == old["R"] and found["OUT"] == new["OUT"] and re.search(r"illcanon: (R: )?(cannot replace R: .*|flush fault|write fault.*)\n$", errors)
        # What one of several inputs has stays away, and OUT or R may be the same without it.
        return found == old or is_end or is_late or found in others or wanted == 3 and found == new
    return status in (wanted, 127) and status != 0 and status != 1 and found == old


def fail_each(words, old, whole, others):
    for call, error in CALLS:
        for k in range(1, 200):
            how = "retval" if error == "0" else "error"
            status, errors, found, parts, injected = run(words, old, "-e", f"trace={call}", "-e", f"inject={call}:{how}={error}:when={k}")
            if not injected:
                break
            # The system's loader dies of its first call.
            if (call, k, status) == ("mmap", 1, -signal.SIGSEGV):
                status = 127
            name = f"{words}: {call} {k} fails by {error}, OUT and R were {'there' if old is OLD else 'absent'}"
            judge(name, is_allowed(words, call, status, errors, found, old, whole, others), f"status {status}, {errors[-200:]!r}, {found}")
            judge(name, not parts or call.startswith("unlink"), f"left {parts}")
            if call in ("brk", "mmap") and status != 127 and (status, found) != whole:
                judge(name, "out of memory" in errors, f"says {errors[-200:]!r}")


def refuse_each(words, old, whole, preload):
    """The k-th request for memory is refused, alone and with all after it: the program says so, or all is as without a fault."""
    for first in ("only", "from"):
        for k in range(1, 2000):
            status, errors, found, parts, injected = run(words, old, LD_PRELOAD=str(preload), REFUSE=str(k), REFUSE_HOW=first)
            if not injected:
                break
            name = f"{words}: request {k} for memory is refused, {first} there"
            is_said = status == 3 and found == old and ": out of memory\n" in errors
            judge(name, not parts and (is_said or (status, found) == whole), f"status {status}, {errors[-200:]!r}, {found}, left {parts}")


def kill_each(words, old, new):
    for k in range(1, 500):
        status, _, found, _, _ = run(words, old, "-e", "trace=all", "-e", f"inject=all:signal=SIGKILL:when={k}")
        if status != -9:
            break
        judge(f"{words}: killed at system call {k}", all(found[name] in (old[name], new[name]) for name in FILES), f"a file is neither old nor new: {found}")
    else:
        judge(words, False, "it was killed each time")


def try_command(words, replaced, preload):
    status, errors, new, parts, _ = run(words, OLD)
    changed = " ".join(name for name in FILES if new[name] != OLD[name])
    judge(words, changed == replaced and not parts, f"without a fault the new files are {changed!r}, and not {replaced!r}, {errors!r}")
    for old in (OLD, ABSENT):
        whole = status, {name: new[name] if name in replaced.split() else old[name] for name in FILES}
        # What the files are where one of several inputs can't be opened.
        several = ["good", "bad"] if {"good", "bad"} <= set(words.split()) or "list" in words else []
        fail_each(words, old, whole, [run(words, old, lacking=name)[2] for name in several])
    kill_each(words, OLD, new)
    if preload:
        refuse_each(words, OLD, (status, new), preload)


# A library that refuses requests for memory. It leaves the file trace where it did.
REFUSE = r"""
#define _GNU_SOURCE
#include <dlfcn.h>
#include <errno.h>
#include <fcntl.h>
#include <stdlib.h>
#include <string.h>
#include <unistd.h>
static int refused(void) {
    static long count;
    const char *at = getenv("REFUSE"), *how = getenv("REFUSE_HOW");
    count++;
    if (!at || (how[0] == 'f' ? count < atol(at) : count != atol(at)))
        return 0;
    if (count == atol(at)) {
        int file = open("trace", O_WRONLY | O_CREAT, 0600);
        if (write(file, "INJECTED", 8) != 8)
            _exit(99);
        close(file);
    }
    errno = ENOMEM;
    return 1;
}
void *malloc(size_t size) {
    static void *(*inner)(size_t);
    if (!inner)
        inner = (void *(*)(size_t))dlsym(RTLD_NEXT, "malloc");
    return refused() ? NULL : inner(size);
}
void *realloc(void *old, size_t size) {
    static void *(*inner)(void *, size_t);
    if (!inner)
        inner = (void *(*)(void *, size_t))dlsym(RTLD_NEXT, "realloc");
    return refused() ? NULL : inner(old, size);
}
int posix_memalign(void **at, size_t alignment, size_t size) {
    static int (*inner)(void **, size_t, size_t);
    if (!inner)
        inner = (int (*)(void **, size_t, size_t))dlsym(RTLD_NEXT, "posix_memalign");
    return refused() ? ENOMEM : inner(at, alignment, size);
}
void *aligned_alloc(size_t alignment, size_t size) {
    static void *(*inner)(size_t, size_t);
    if (!inner)
        inner = (void *(*)(size_t, size_t))dlsym(RTLD_NEXT, "aligned_alloc");
    return refused() ? NULL : inner(alignment, size);
}
"""


def built(path):
    """The library, or None where it can't be made."""
    if not shutil.which("cc"):
        print("cc is not installed: no memory was refused")
        return None
    subprocess.run(["cc", "-shared", "-fPIC", "-O1", "-o", path, "-x", "c", "-", "-ldl"], input=REFUSE, text=True, check=True)
    return path


# Words that are run in a file system in memory which has room for no more file, or for 1 MiB: OUT and R, which are there, stay as they were.
FULL = [
    ("canonicalise ../good OUT", "cannot replace OUT: no storage space"), ("canonicalise --whole ../good OUT", "cannot replace OUT: no storage space"),
    ("canonicalise -o OUT ../good ../bad", "cannot replace OUT: no storage space"), ("canonicalise ../good NEW", "cannot replace NEW: no storage space"),
    ("canonicalise --keep-going --refused R ../bad ../OUT", "cannot replace R: no storage space"), ("check --keep-going --refused R ../bad", "cannot replace R: no storage space"),
    ("check --json --keep-going --refused R ../bad", "cannot replace R: no storage space"),
]
LARGE = [("canonicalise ../large OUT", "write fault after"), ("canonicalise --keep-going --refused R ../large OUT", "write fault after"),
         ("canonicalise -o OUT ../good ../large", "write fault after"), ("canonicalise ../large NEW", "write fault after")]
MOUNT = 'mount -t tmpfs -o "size=1m,nr_inodes=$0" tmpfs FULL && cp OUT R FULL && cd FULL && "$@"; status=$?; cmp ../OUT OUT && cmp ../R R && [ "$(ls | tr "\\n" " ")" = "OUT R " ] || echo CHANGED; exit $status'


def try_full():
    way = next((way for way in (["unshare", "-m"], ["unshare", "-rm"])
                if shutil.which("unshare") and subprocess.run([*way, "mount", "-t", "tmpfs", "tmpfs", "/mnt"], capture_output=True).returncode == 0), None)
    if not way:
        print("no file system can be mounted: full ones were not tried")
        return
    for rows, inodes in ((FULL, "3"), (LARGE, "100")):
        for words, line in rows:
            path = folder(OLD)
            (path / "FULL").mkdir()
            (path / "large").write_bytes(GOOD * 40_000)
            done = subprocess.run([*way, "bash", "-c", MOUNT, inodes, PROGRAM, *words.split()], cwd=path, capture_output=True, text=True)
            shutil.rmtree(path)
            judge(f"{words}: full", done.returncode == 3 and line in done.stderr and "CHANGED" not in done.stdout, f"status {done.returncode}, {done.stdout[-200:]}{done.stderr[-300:]}")


def main():
    try_full()
    if not shutil.which("strace"):
        print("strace is not installed: no system call was made to fail")
    else:
        with tempfile.TemporaryDirectory() as name, ThreadPoolExecutor(os.cpu_count()) as pool:
            preload = built(pathlib.Path(name) / "refuse.so")
            list(pool.map(lambda command: try_command(*command, preload), COMMANDS))
    print(f"{passed} passed, {failed} failed")
    return 1 if failed else 0


sys.exit(main())
