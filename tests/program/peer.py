#!/usr/bin/env python3
"""Compares with two other codecs of the module of ISO 10161-1: YAZ's, and the one that Erlang's compiler of ASN.1 makes of the module.

Each reads messages that are written here and writes them its own way, and Erlang writes messages of its own choice: the program has to find the
normal form that the encoder writes, and that Erlang writes. Needs the program built, `cc`, and Debian's libyaz-dev and erlang-asn1; what isn't
installed is left out. Usage: peer.py [SEED [COUNT]]. Prints the seed, with which a run is made again.
"""
import random
import subprocess
import sys
import tempfile
from pathlib import Path

TOP = Path(__file__).resolve().parents[2]
sys.path[:0] = [str(TOP / "tests"), str(TOP / "vectors")]

from model.encoder import Speller, Writer
from model.judge import Judge, message
from peers import Erlang, Yaz
from model.tables import ALL_LISTS, ALL_ROWS, CHOICES, PROGRAM, ROOTS, Bits, Tree, random_value, seed_and_count

# of examples/every-part.ber, those with a part that profile 2 tags in another way than the module
TAGGED_OTHERWISE = [2, 22]
# the highest tag number in a foreign tree that Erlang reads
ERLANG_TAG = 2**14 - 1
OBJECT_IDENTIFIERS = [bytes.fromhex("2A8648CE13050A"), bytes.fromhex("2A"), bytes.fromhex("550406"), bytes.fromhex("28C27B0D03")]


class ForYaz(Speller):
    """Spellings that YAZ reads: it has no defaults, bare wrappers or strings in segments, and no length of more octets than it needs."""

    def length(self, size):
        return Writer.length(self, size)

    def text(self, tag, octets):
        return self.element(tag, False, octets)

    def bits(self, tag, bits):
        return self.element(tag, False, self.bit_content(bits))

    def writes_default(self):
        return True

    def writes_bare(self):
        return False


class ForErlang(Speller):
    """Spellings that Erlang reads: it knows no bare wrappers, breaks on strings in no segments, and loses bits of a BIT STRING in segments."""

    def segments(self, octets, depth):
        return super().segments(octets, depth) or self.element(("universal", 4), False, b"")

    def bits(self, tag, bits):
        return self.element(tag, False, self.bit_content(bits))

    def writes_bare(self):
        return False


def for_yaz(node, value):
    """A leaf that YAZ can hold: a text as a string of C, an OBJECT IDENTIFIER of a few numbers, and a BIT STRING of whole octets. None for an
    ObjectDescriptor, for which YAZ has GraphicString."""
    if node == "IllString":
        return value[0], value[1].replace("\0", "0")
    if node == "ObjectIdentifier":
        return OBJECT_IDENTIFIERS[len(value) % len(OBJECT_IDENTIFIERS)]
    if node == "BitString":
        return Bits(8 * len(value.octets[:200]), value.octets[:200])
    return None if node == "ObjectDescriptor" else value


def for_erlang(node, value):
    """A leaf that Erlang can hold."""
    return low_tree(value) if node == "Any" else value


def low_tree(tree):
    contents = tree.contents if isinstance(tree.contents, bytes) else [low_tree(inner) for inner in tree.contents]
    return Tree((tree.tag[0], min(tree.tag[1], ERLANG_TAG)), contents)


def narrowed(node, value, narrow):
    """A value with `narrow` of each leaf."""
    if node in CHOICES:
        return value[0], narrowed(ALL_ROWS[node][value[0]].node, value[1], narrow)
    if node not in ALL_ROWS:
        return narrow(node, value)
    rows = ALL_ROWS[node] * len(value) if node in ALL_LISTS else ALL_ROWS[node]
    return [entry if entry is None else narrowed(row.node, entry, narrow) for row, entry in zip(rows, value)]


FOR_PEER = {Yaz: (ForYaz, for_yaz), Erlang: (ForErlang, for_erlang)}


def normal_forms(octets, profile):
    """The normal forms of messages, as the program finds them; None if it refuses one."""
    with tempfile.TemporaryDirectory() as folder:
        file = Path(folder, "messages")
        file.write_bytes(octets)
        done = subprocess.run([PROGRAM, "canonicalise", "--profile", profile, file, "-"], capture_output=True)
    if done.returncode:
        print(done.stderr.decode("latin-1"), end="")
        return None
    return done.stdout


def messages_of(octets, profile):
    """The messages of a file, one after another."""
    while octets:
        _, size = Judge(octets, profile).message()
        yield octets[:size]
        octets = octets[size:]


def normal(octets, profile):
    return Writer().value(ROOTS[profile], message(octets, profile), None)


def compare(title, peer, messages, profile="module", unread=()):
    """Whether the peer reads each message but those of these numbers, and the program finds the normal form of what it writes of them."""
    answers = [peer.convert(octets) for octets in messages]
    failed = [number for number, (is_read, _) in enumerate(answers, 1) if not is_read]
    written = b"".join(octets for is_read, octets in answers if is_read)
    wanted = b"".join(normal(octets, profile) for octets, (is_read, _) in zip(messages, answers) if is_read)
    right = normal_forms(written, profile) == wanted and failed == list(unread)
    right &= not isinstance(peer, Erlang) or written == wanted
    print(f"{title}: {len(answers) - len(failed)} read and written by {type(peer).__name__}, not read: {failed}:", "all right" if right else "not right")
    return right


def compare_values(title, peer, chance, values):
    """The same of values of the module profile, as far as the peer can hold them, spelled at random. The peer has to read each."""
    root, (speller, narrow) = ROOTS["module"], FOR_PEER[type(peer)]
    return compare(title, peer, [speller(chance).value(root, narrowed(root, value, narrow), None) for value in values])


def compare_own(erlang, yaz, count):
    """Whether random messages of Erlang's own choice are accepted as they are, and as YAZ writes those that it reads."""
    answers = erlang.random(count)
    own = b"".join(octets for _, octets in answers)
    right = all(is_read for is_read, _ in answers) and normal_forms(own, "module") == own
    print(f"{count} messages of Erlang's choice:", "each its normal form" if right else "not right")
    if yaz:
        read = [octets for _, octets in answers if yaz.convert(octets)[0]]
        right &= compare("those that YAZ reads", yaz, read) and len(read) > 0
    return right


def main():
    seed, count = seed_and_count()
    chance = random.Random(seed)
    print(f"seed {seed}")
    every_part, module = ((TOP / "examples" / name).read_bytes() for name in ("every-part.ber", "module.ber"))
    examples = list(messages_of(module, "module"))
    yaz, erlang = Yaz() if Yaz.is_here() else None, Erlang() if Erlang.is_here() else None
    right = True
    if yaz:
        right &= compare("every-part.ber in profile 2", yaz, list(messages_of(every_part, "2")), "2", TAGGED_OTHERWISE)
    for peer in filter(None, (yaz, erlang)):
        right &= compare_values("module.ber, spelled again", peer, chance, [message(octets, "module") for octets in examples])
        right &= compare_values("random APDUs", peer, chance, [random_value(chance, ROOTS["module"]) for _ in range(count)])
    if erlang:
        right &= compare("module.ber", erlang, examples)
        right &= compare_own(erlang, yaz, count)
    for peer in filter(None, (yaz, erlang)):
        peer.close()
    sys.exit(0 if right else 1)


if __name__ == "__main__":
    main()
