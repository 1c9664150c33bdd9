#!/usr/bin/env python3
"""Compares the man page and the completions with the program's help, and installs the program in a temporary folder.

The commands and options of `illcanon --help` and of `illcanon COMMAND --help` have to be those of the man page's synopsis, and those
that each completion offers. The completion for bash runs in bash, by itself and at a terminal; those for zsh and fish run in these
shells, where they are installed. mandoc judges the man page, where it is installed. What isn't installed is skipped, and that is said.
`make install` and `make uninstall` run with a DESTDIR. Needs the program built.
"""
import os
import pty
import re
import select
import shutil
import subprocess
import sys
import tempfile
import time
from pathlib import Path

ROOT = Path(__file__).resolve().parents[2]
PROGRAM = ROOT / "crates/illcanon/out/illcanon"
TOPICS = {"causes", "profile"}
PROFILES = {"2", "module"}
# The completions ask the program itself.
WITH_PROGRAM = {**os.environ, "PATH": f"{PROGRAM.parent}:{os.environ['PATH']}"}
faults, skipped = [], []


def run(words, **more):
    return subprocess.run([str(word) for word in words], capture_output=True, text=True, check=False, **more)


def expect(found, wanted, what):
    if found != wanted:
        faults.append(f"{what}: {found!r}, and not {wanted!r}")


def program_help(*words):
    done = run([PROGRAM, *words, "--help"])
    if done.returncode != 0:
        sys.exit(f"packaging.py: {PROGRAM} {' '.join(words)} --help: status {done.returncode}")
    return done.stdout


def options_in(text):
    """The options of a help text, short and long."""
    lines = re.findall(r"^ +((?:-\w)?(?:, )?(?:--[\w-]+)?)(?: |$)", text[text.index("\nOptions:") :], re.M)
    return {option for line in lines for option in line.split(", ") if option}


def commands_of_program():
    """Each command with its options; None has those of the program."""
    text = program_help()
    names = re.findall(r"^  (\w+)  ", text[text.index("\nCommands:") : text.index("\nOptions:")], re.M)
    options = {name: options_in(program_help(name)) for name in names if name != "help"}
    return {None: options_in(text), **options}


def without_help(options):
    return options - {"-h", "--help", "-V", "--version"}


def check_man_page(commands):
    text = (ROOT / "man/illcanon.1").read_text(encoding="utf-8")
    synopsis = text[text.index(".Sh SYNOPSIS") : text.index(".Sh DESCRIPTION")]
    found = {}
    for part in synopsis.split("\n.Nm\n")[1:]:
        name = re.match(r"\.Cm (\w+)", part).group(1)
        found[name] = found.get(name, set()) | {"-" + option for option in re.findall(r"\bFl (-?\w[\w-]*)", part)}
    found.pop("help")
    long = {name: {option for option in without_help(options) if option not in ("--output", "--with-filename")} for name, options in commands.items() if name}
    expect(found, long, "man/illcanon.1, synopsis")
    described = text[text.index(".Sh OPTIONS") : text.index(".Sh EXIT STATUS")]
    listed = {"-" + option for line in re.findall(r"^\.It (Fl .*)$", described, re.M) for option in re.findall(r"(?:Fl|,) (-?\w[\w-]*)", line)}
    expect(listed, set().union(*commands.values()), "man/illcanon.1, options")
    version = re.search(r'\.version\("([^"]+)"\)', (ROOT / "crates/ill_args/src/program.rt").read_text(encoding="utf-8"))[1]
    for flag in "--version", "-V":
        done = run([PROGRAM, flag])
        expect((done.returncode, done.stdout, done.stderr), (0, f"illcanon {version}\n", ""), flag)
    if shutil.which("mandoc"):
        done = run(["mandoc", "-T", "lint", ROOT / "man/illcanon.1"])
        expect((done.returncode, done.stdout + done.stderr), (0, ""), "mandoc -T lint man/illcanon.1")
    else:
        skipped.append("mandoc is not installed: the man page was not judged")


def questions(commands):
    """What is completed: the words after the program's name, the last one begun, and what may be offered; None stands for names of files."""
    names = {name for name in commands if name}
    asked = [([""], names | {"help"} | commands[None]), (["c"], {name for name in names if name.startswith("c")}), (["help", ""], names | TOPICS | {"help"}), (["help", "ca"], {name for name in names | TOPICS if name.startswith("ca")})]
    for name in names:
        asked.append(([name, "-"], commands[name]))
        asked.append(([name, "--h"], {option for option in commands[name] if option.startswith("--h")}))
        asked.append(([name, "--profile", ""], PROFILES))
        asked.append(([name, "--profile", "m"], {"module"}))
        asked.append(([name, ""], None))
        asked.append(([name, "--", "-"], None))
    return asked


def check_bash(commands):
    script = """
        compopt() { echo FILES; }
        complete() { :; }
        source "$1"
        shift
        COMP_WORDS=(illcanon "$@")
        COMP_CWORD=$#
        _illcanon
        printf '%s\\n' "${COMPREPLY[@]}"
    """
    for words, wanted in questions(commands):
        done = run(["bash", "-c", script, "bash", ROOT / "completions/illcanon.bash", *words], env=WITH_PROGRAM)
        found = set(done.stdout.split())
        expect((found, done.stderr), ({"FILES"} if wanted is None else wanted, ""), f"bash: {words}")
    typed = at_a_terminal("illcanon che\t--li\t")
    expect("check --lines " in typed, True, f"bash at a terminal: {typed!r}")
    for begun in ["--profile m", "--profile=m"]:
        typed = at_a_terminal(f"illcanon check {begun}\t")
        expect(f"check {begun}odule " in typed, True, f"bash at a terminal: {typed!r}")
    typed = at_a_terminal("illcanon check --files-from=na\t")
    expect("--files-from=name with blanks" in typed.replace("\\", ""), True, f"bash at a terminal: {typed!r}")


def at_a_terminal(keys):
    """What an interactive bash shows of the keys, in a folder with one file."""
    with tempfile.TemporaryDirectory() as folder:
        (Path(folder) / "name with blanks").write_text("")
        child, terminal = pty.fork()
        if child == 0:
            os.chdir(folder)
            os.environ.update(WITH_PROGRAM, TERM="dumb", PS1="$ ", INPUTRC="/dev/null")
            os.execvp("bash", ["bash", "--norc", "--noprofile", "-i"])
        os.write(terminal, f"source {ROOT}/completions/illcanon.bash\n".encode())
        time.sleep(0.5)
        os.write(terminal, keys.encode())
        shown, end = b"", time.time() + 2
        while time.time() < end:
            ready, _, _ = select.select([terminal], [], [], 0.1)
            if ready:
                try:
                    shown += os.read(terminal, 65536)
                except OSError:
                    break
        os.close(terminal)
        os.kill(child, 9)
        os.waitpid(child, 0)
    return re.sub(r"[\r\n\x07]", "", shown.decode(errors="replace"))


def check_zsh(commands):
    if not shutil.which("zsh"):
        skipped.append("zsh is not installed: its completion was not run")
        return
    # `_describe` and `_files` are replaced by functions that print what they offer.
    script = """
        _describe() {
            local array
            for array in ${@:#-*}; do [[ ${(Pt)array} == array* ]] && print -rl -- "${(P@)array%%:*}"; done
        }
        _files() { print FILES; }
        words=(illcanon "${@:2}")
        CURRENT=$#
        source $1
    """
    path = ROOT / "completions/_illcanon"
    for words, wanted in questions(commands):
        begun = words[-1]
        done = run(["zsh", "-fc", script, "zsh", path, *words], env=WITH_PROGRAM)
        # zsh itself leaves out what doesn't begin with the word.
        found = {word for word in done.stdout.split() if word == "FILES" or word.startswith(begun)}
        expect((found, done.stderr), ({"FILES"} if wanted is None else wanted, ""), f"zsh: {words}")


def check_fish(commands):
    if not shutil.which("fish"):
        skipped.append("fish is not installed: its completion was not run")
        return
    with tempfile.TemporaryDirectory() as folder:
        # An option alone can't be distinguished from `-` in the first place: fish offers the options after it.
        for words, wanted in questions(commands):
            if words[-1] == "" and words[0] not in ("", "help") or "--" in words:
                continue
            asked = ["-", ""] if words == [""] else [words[-1]]
            found = set()
            for last in asked:
                line = " ".join(["illcanon", *words[:-1], last])
                script = f"source {ROOT}/completions/illcanon.fish; complete -C '{line}'"
                done = run(["fish", "--no-config", "-c", script], cwd=folder, env={**WITH_PROGRAM, "HOME": folder})
                found |= {text.split("\t")[0] for text in done.stdout.splitlines()}
            expect(found, wanted, f"fish: {words}")


def check_install():
    with tempfile.TemporaryDirectory() as folder:
        words = ["make", "-s", "-C", ROOT, f"DESTDIR={folder}/a b", "PREFIX=/opt/ill"]
        done = run([*words, "install"])
        expect((done.returncode, done.stderr), (0, ""), "make install")
        top = Path(folder) / "a b/opt/ill"
        wanted = {
            "bin/illcanon": PROGRAM,
            "share/man/man1/illcanon.1": ROOT / "man/illcanon.1",
            "share/bash-completion/completions/illcanon": ROOT / "completions/illcanon.bash",
            "share/zsh/site-functions/_illcanon": ROOT / "completions/_illcanon",
            "share/fish/vendor_completions.d/illcanon.fish": ROOT / "completions/illcanon.fish",
        }
        found = {str(path.relative_to(top)) for path in top.rglob("*") if path.is_file()}
        expect(found, set(wanted), "files of make install")
        for name, source in wanted.items():
            if name in found:
                expect((top / name).read_bytes() == source.read_bytes(), True, f"{name} is not {source.name}")
                expect(oct((top / name).stat().st_mode & 0o777), oct(0o755 if name.startswith("bin") else 0o644), f"mode of {name}")
        done = run([top / "bin/illcanon", "--version"])
        expect(done.returncode, 0, "the installed program")
        done = run([*words, "uninstall"])
        expect((done.returncode, done.stderr), (0, ""), "make uninstall")
        expect([path for path in top.rglob("*") if path.is_file()], [], "files after make uninstall")


def main():
    commands = commands_of_program()
    check_man_page(commands)
    check_bash(commands)
    check_zsh(commands)
    check_fish(commands)
    check_install()
    for line in faults + skipped:
        print("packaging.py:", line)
    print(f"{len(commands) - 1} commands, {len(skipped)} skipped, {len(faults)} faults")
    sys.exit(1 if faults else 0)


if __name__ == "__main__":
    main()
