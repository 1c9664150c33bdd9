"""Other codecs of the whole module of ISO 10161-1, each a process that is asked message by message.

Both have the module from YAZ's package: YAZ's own codec, and the one that Erlang's compiler of ASN.1 makes of it.
"""
import re
import shutil
import subprocess
import tempfile
from pathlib import Path

FOLDER = Path(__file__).resolve().parent
HEADER, MODULE = Path("/usr/include/yaz/ill.h"), Path("/usr/share/yaz/ill/ill9702.asn")
ERL = ["erl", "-noshell"]


class Peer:
    """A codec that converts messages, each to its own spelling of it."""

    def __init__(self, words, folder):
        self.folder = folder
        self.process = subprocess.Popen(words, stdin=subprocess.PIPE, stdout=subprocess.PIPE, cwd=folder.name)

    def convert(self, octets):
        """Whether the codec reads a message, and what it writes of it, or why it doesn't."""
        self.process.stdin.write(len(octets).to_bytes(4, "big") + octets)
        self.process.stdin.flush()
        return next(answers(self.process.stdout))

    def close(self):
        self.process.stdin.close()
        self.process.wait()


def answers(stream):
    while head := stream.read(5):
        yield head[0] == 1, stream.read(int.from_bytes(head[1:], "big"))


class Yaz(Peer):
    """The codec of YAZ. Needs `cc` and YAZ's headers (Debian: libyaz-dev)."""

    @staticmethod
    def is_here():
        return HEADER.exists() and shutil.which("cc") is not None

    def __init__(self):
        folder = tempfile.TemporaryDirectory()
        super().__init__([build_yaz(folder.name)], folder)


def build_yaz(folder):
    program = Path(folder, "yaz")
    subprocess.run(["cc", "-O1", "-o", program, FOLDER / "yaz.c", "-lyaz"], check=True)
    return program


class Erlang(Peer):
    """The codec that Erlang makes, which writes DER. Needs Erlang's asn1 and YAZ's module (Debian: erlang-asn1, libyaz-dev)."""

    @staticmethod
    def is_here():
        return MODULE.exists() and shutil.which("erl") is not None and bool(list(Path("/usr/lib/erlang/lib").glob("asn1-*")))

    def __init__(self):
        folder = tempfile.TemporaryDirectory()
        text = erlang_module(MODULE.read_text())
        Path(folder.name, "ISO-10161-ILL-1.asn").write_text(text)
        Path(folder.name, "ISO-10161-ILL-1-Values.asn").write_text(with_named_days(text))
        shutil.copy(FOLDER / "erlang.erl", Path(folder.name, "erlang_codec.erl"))
        compile_all = "ok = asn1ct:compile('ISO-10161-ILL-1', [der]), ok = asn1ct:compile('ISO-10161-ILL-1-Values', [der]), {ok, _} = c:c(erlang_codec), halt()."
        subprocess.run([*ERL, "-eval", compile_all], cwd=folder.name, check=True, stdout=subprocess.DEVNULL)
        super().__init__([*ERL, "-s", "erlang_codec", "convert", "-s", "init", "stop"], folder)

    def random(self, count):
        """As many random messages in DER, of Erlang's own choice."""
        words = [*ERL, "-s", "erlang_codec", "write", str(count), "-s", "init", "stop"]
        with subprocess.Popen(words, stdout=subprocess.PIPE, cwd=self.folder.name) as process:
            return list(answers(process.stdout))


def erlang_module(text):
    """The module as Erlang's compiler reads it: without comments, with a name for each alternative, and without what says which numbers and
    texts are allowed. An ENUMERATED is a type of its own, with the same tag, that holds any number."""
    text = re.sub(r"--.*", "", text)
    text = re.sub(r"ILL-APDU ::= CHOICE \{(.*?)\}", lambda found: "ILL-APDU ::= CHOICE {" + named(found[1]) + "}", text, count=1, flags=re.S)
    text = re.sub(r"ILL-String ::= CHOICE \{.*?\}", "ILL-String ::= CHOICE { general GeneralString, edifact EDIFACTString }", text, flags=re.S)
    text = re.sub(r"(PrintableString|VisibleString)\s*\(FROM.*?\)\)", r"\1", text, flags=re.S)
    text = re.sub(r"\(SIZE \(\d+(\.\.\d+)?\)\)|SIZE \(\d+\.\.\d+\)|\(\d+\.\.\d+\)|\(loan \| copy-non-returnable\)", "", text)
    text = re.sub(r"ENUMERATED\s*\{.*?\}", "Number", text, flags=re.S)
    text = re.sub(r"INTEGER\s*\{.*?\}", "INTEGER", text, flags=re.S)
    return text.replace("\nEND", "\nNumber ::= [UNIVERSAL 10] IMPLICIT INTEGER\n\nEND")


def named(types):
    return ", ".join(f"apdu{number} {name.strip()}" for number, name in enumerate(types.split(","), 1))


def with_named_days(text):
    """The same module for random values, in which a day and a time are atoms, since Erlang would make texts that are neither."""
    for name in ("ISO-Date", "ISO-Time"):
        text = re.sub(rf"\n{name} ::= VisibleString", f"\n{name} ::= ENUMERATED {{ {name.lower()} }}", text)
    return text.replace("ISO-10161-ILL-1 DEFINITIONS", "ISO-10161-ILL-1-Values DEFINITIONS")
