"""The calls on the files of examples/, on worked messages of the module profile, and on octets that are refused; and in both profiles on
random messages, some changed, beside the encoder and the judge of tests/. COUNT (2,000) messages of each profile are made. What the
package does with a library that breaks its header is tried on one that `cc` makes here.
"""
import collections
import contextlib
import functools
import glob
import hashlib
import io
import itertools
import json
import mmap
import os
import pickle
import random
import re
import signal
import socket
import subprocess
import sys
import tempfile
import threading
import tracemalloc
import unittest

import illcanon
from illcanon import Message, NotBuilt, Refused

TOP = os.path.join(os.path.dirname(os.path.abspath(__file__)), "..", "..", "..")
PROGRAM = os.path.join(TOP, "crates", "illcanon", "out", "illcanon")
ROWS = os.path.join(TOP, "crates", "test_messages", "src", "read", "module_rows.rt")
COUNT = int(os.environ.get("COUNT") or 2000)
sys.path[:0] = [os.path.join(TOP, "tests"), os.path.join(TOP, "tests", "program")]
from model.encoder import Speller, Writer
from model.judge import Judge, Refused as Judged
from model.tables import ROOTS, random_value
from dump import dump as dump_of_model, framed
from refusals import misspelled

EXPIRED = bytes.fromhex("741f301d800102a10aa1031b0147a2031b0151a20ca00a80083230323430323239")
REQUEST = bytes.fromhex("61343032800102a10aa1031b0147a2031b0151a20ca00a80083230323430323239a9030a0101ab0c800100810100820101830101b000")
# The same request with the elements 85, 8e, 95 and 96, which have their defaults.
REQUEST_WITH_DEFAULTS = bytes.fromhex(
    "6140303e800102a10aa1031b0147a2031b0151a20ca00a80083230323430323239850101a9030a0101ab0c8001008101008201018301018e0103b000950100960100"
)


# The greatest number of octets of a message.
LIMIT = 1048576


def greatest_message():
    """An EXPIRED in normal form that has as many octets as a message may have: nearly all are of its transaction-qualifier."""
    text = b"Q" * 1048529
    qualifier = b"\xa2\x83" + (5 + len(text)).to_bytes(3, "big") + b"\x1b\x83" + len(text).to_bytes(3, "big") + text
    identifier = bytes.fromhex("a1031b0147") + qualifier
    parts = b"\x80\x01\x02" + b"\xa1\x83" + len(identifier).to_bytes(3, "big") + identifier + bytes.fromhex("a20ca00a80083230323430323239")
    return b"\x74\x83" + (5 + len(parts)).to_bytes(3, "big") + b"\x30\x83" + len(parts).to_bytes(3, "big") + parts


@contextlib.contextmanager
def within(seconds):
    """Raises TimeoutError where what is done takes longer, as where a read waits for ever."""

    def stop(*_):
        raise TimeoutError(f"after {seconds} seconds")

    before = signal.signal(signal.SIGALRM, stop)
    signal.alarm(seconds)
    try:
        yield
    finally:
        signal.alarm(0)
        signal.signal(signal.SIGALRM, before)


def text_of(name):
    with open(os.path.join(TOP, "bindings", "tests", name), encoding="ascii") as file:
        return file.read()


def octets_of(name):
    with open(os.path.join(TOP, "examples", name), "rb") as file:
        return file.read()


# The elements of an EXPIRED that has a NULL where its version is due.
WRONG_TAG_TEXT = """message 3: refused
      0  74 04  Expired
      2    30 02  SEQUENCE
refused at 4: UnexpectedTag
    this tag is not expected here
    clause X.690, 8.9.2, 8.10.2, 8.13 and 8.14, with the types of ISO 10161-1
    path Expired
    found [UNIVERSAL 5] NULL primitive: 05
    due [0] protocol-version-num
      4      05 00  [UNIVERSAL 5] NULL = ""  (not judged)
"""
# Each file, and the normal forms of its messages, which an encoder in Python wrote.
FILES = [
    ("every-part.ber", octets_of("every-part.der")),
    ("every-part.der", octets_of("every-part.der")),
    ("expired-long-form.ber", EXPIRED),
]


class Messages(unittest.TestCase):
    def test_streams_are_taken_apart(self):
        for name, forms in FILES:
            found = list(illcanon.messages(octets_of(name)))
            self.assertEqual(b"".join(found), octets_of(name))
            self.assertEqual(b"".join(illcanon.normalise(message) for message in found), forms)
        self.assertEqual(list(illcanon.messages(b"")), [])

    def test_streams_are_normalised(self):
        for name, forms in FILES:
            found = list(illcanon.normal_forms(octets_of(name)))
            self.assertEqual(found, list(illcanon.messages(forms)))
        self.assertEqual(list(illcanon.normal_forms(memoryview(b"x" + EXPIRED + REQUEST)[1:])), [EXPIRED, REQUEST])
        self.assertEqual(list(illcanon.normal_forms(b"")), [])

    def test_the_module_profile_is_read(self):
        octets, forms = octets_of("module.ber"), octets_of("module.der")
        self.assertEqual(b"".join(illcanon.normal_forms(octets, profile="module")), forms)
        for message in illcanon.messages(octets, profile="module"):
            with self.assertRaises(Refused):
                illcanon.check(message)

    def test_normal_forms_are_normal(self):
        for name, _ in FILES:
            for message in illcanon.messages(octets_of(name)):
                form = illcanon.normalise(message)
                self.assertTrue(illcanon.check(form))
                self.assertEqual(illcanon.check(message), form == message)
                self.assertTrue(illcanon.same(message, form))
                self.assertFalse(illcanon.same(message, REQUEST))

    def test_digests_are_of_the_normal_form(self):
        for name, forms in FILES:
            for message, form in zip(illcanon.messages(octets_of(name)), illcanon.messages(forms)):
                self.assertEqual(illcanon.digest(message), hashlib.sha256(form).digest())

    def test_texts_are_those_of_the_program(self):
        for name, _ in FILES:
            texts = "".join(illcanon.show(message, i) for i, message in enumerate(illcanon.messages(octets_of(name)), 1))
            wanted = subprocess.run([PROGRAM, "show", os.path.join(TOP, "examples", name)], stdout=subprocess.PIPE, check=True)
            self.assertEqual(texts, wanted.stdout.decode("ascii"))

    def test_elements_are_those_of_the_program(self):
        for name, profile in [*((name, "2") for name, _ in FILES), ("module.ber", "module")]:
            found = [illcanon.dump(message, i, profile=profile) for i, message in enumerate(illcanon.messages(octets_of(name), profile=profile), 1)]
            self.assertEqual({refusal for _, refusal in found}, {None})
            words = [PROGRAM, "dump", "--profile", profile, os.path.join(TOP, "examples", name)]
            wanted = subprocess.run(words, stdout=subprocess.PIPE, check=True)
            self.assertEqual("".join(text for text, _ in found), wanted.stdout.decode("ascii"))
        for number in (-1, 2**32):
            self.assertRaises(ValueError, illcanon.dump, EXPIRED, number)

    def test_elements_are_those_of_the_model(self):
        for profile, root in ROOTS.items():
            chance, counts = random.Random(9), collections.Counter()
            for _ in range(COUNT // 4):
                octets = b""
                while not octets:
                    octets = misspelled(chance, root, profile, chance.random() < 0.5)
                    octets = octets[: framed(octets)]
                text, refusal = illcanon.dump(octets, profile=profile)
                self.assertEqual(text, dump_of_model(octets, profile)[0], octets.hex())
                counts.update({"refused": refusal is not None, "unjudged": "not judged" in text, "due": "\n    due " in text})
            self.assertGreater(min(counts.values()), COUNT // 50, counts)

    def test_the_rest_of_a_refused_message_is_not_judged(self):
        text, refusal = illcanon.dump(bytes.fromhex("740430020500"), 3)
        self.assertEqual((text, str(refusal)), (WRONG_TAG_TEXT, "refused at 4 in message 1: UnexpectedTag"))
        text, refusal = illcanon.dump(EXPIRED + bytes.fromhex("740005"))
        self.assertEqual(refusal.cause, "TrailingBytes")
        rest = text.partition("\nrefused at 33: TrailingBytes\n")[2].splitlines()
        self.assertEqual(rest[-2:], ["     33  74 00  Expired  (not judged)", "     35  05  octets  (not judged)"])
        text, refusal = illcanon.dump(bytes(3 << 20))
        octets = "00" + " 00" * ((1 << 20) - 1)
        self.assertEqual((refusal.cause, text.splitlines()[-1] == f"      0  {octets}  octets  (not judged)"), ("BadTag", True))

    def test_the_greatest_message_is_read_and_an_octet_more_is_refused(self):
        message = greatest_message()
        self.assertEqual(len(message), LIMIT)
        self.assertTrue(illcanon.normalise(message) == message and illcanon.check(message))
        self.assertTrue(list(illcanon.messages(message + EXPIRED)) == [message, EXPIRED])
        self.assertIsNone(illcanon.dump(message)[1])
        text, refusal = illcanon.dump(message + b"\0")
        self.assertEqual((refusal.cause, refusal.offset), ("TrailingBytes", LIMIT))
        self.assertIn("\nrefused at 1048576: TrailingBytes\n", text)
        for call in SINGLE:
            with self.assertRaises(Refused) as caught:
                call(message + b"\0")
            self.assertEqual((caught.exception.cause, caught.exception.offset), ("TrailingBytes", LIMIT))

    def test_a_message_is_a_dict(self):
        value = {
            "protocol-version-num": 2,
            "transaction-id": {"transaction-group-qualifier": {"general": "G"}, "transaction-qualifier": {"general": "Q"}},
            "service-date-time": {"date-time-of-this-service": {"date": "20240229"}},
        }
        wanted = {"number": 1, "offset": 0, "octets": 33, "apdu": "Expired", "normal": True, "value": value}
        self.assertEqual(illcanon.parse(EXPIRED), wanted)
        self.assertEqual(illcanon.parse(octets_of("expired-long-form.ber")), {**wanted, "octets": 44, "normal": False})
        numbers = {"number": 2**32 - 1, "offset": 2**64 - 1}
        self.assertEqual(illcanon.parse(EXPIRED, 2**32 - 1, 2**64 - 1), {**wanted, **numbers})
        for wrong in ((-1, 0), (2**32, 0), (1, -1), (1, 2**64)):
            self.assertRaises(ValueError, illcanon.parse, EXPIRED, *wrong)

    def test_dicts_are_those_of_the_program(self):
        for name, profile in [*((name, "2") for name, _ in FILES), ("module.ber", "module")]:
            found = [illcanon.parse(it.octets, it.number, it.offset, profile=profile) for it in illcanon.results(octets_of(name), profile=profile)]
            words = [PROGRAM, "show", "--json", "--profile", profile, os.path.join(TOP, "examples", name)]
            lines = subprocess.run(words, stdout=subprocess.PIPE, check=True).stdout.splitlines()
            self.assertEqual(found, [json.loads(line) for line in lines])

    def test_elements_are_framed(self):
        for size in range(len(EXPIRED)):
            self.assertIsNone(illcanon.frame(EXPIRED[:size]))
        self.assertEqual(illcanon.frame(EXPIRED), 33)
        self.assertEqual(illcanon.frame(EXPIRED + b"\0"), 33)
        self.assertEqual(illcanon.frame(bytes.fromhex("74803080000000007480")), 8)
        for octets in (b"\0", b"\x74\xff", b"\x54\x80", bytes.fromhex("748000ff")):
            self.assertRaises(ValueError, illcanon.frame, octets)

    def test_a_number_stands_before_the_text(self):
        self.assertEqual(illcanon.show(EXPIRED).split("\n")[0], "message 1 Expired")
        self.assertEqual(illcanon.show(EXPIRED, 4294967295).split("\n")[0], "message 4294967295 Expired")
        for number in (-1, 2**32):
            self.assertRaises(ValueError, illcanon.show, EXPIRED, number)

    def test_octets_are_anything_like_bytes(self):
        self.assertEqual(illcanon.normalise(bytearray(EXPIRED)), EXPIRED)
        self.assertEqual(illcanon.normalise(memoryview(b"x" + EXPIRED)[1:]), EXPIRED)
        with mmap.mmap(-1, len(EXPIRED)) as mapped:
            mapped.write(EXPIRED)
            self.assertEqual(illcanon.normalise(mapped), EXPIRED)
        self.assertRaises(TypeError, illcanon.normalise, "text")

    def test_octets_are_those_of_the_call(self):
        for call, wanted in ((illcanon.messages, EXPIRED), (illcanon.normal_forms, EXPIRED), (illcanon.results, Message(1, 0, EXPIRED))):
            octets = bytearray(EXPIRED)
            found = call(octets)
            octets[:] = REQUEST
            self.assertEqual(list(found), [wanted])
            self.assertRaises(TypeError, call, "text")

    def test_a_normal_form_may_be_longer(self):
        bare = bytes.fromhex("741d800102a10aa1031b0147a2031b0151a20ca00a80083230323430323239")
        self.assertEqual(illcanon.normalise(bare), EXPIRED)
        self.assertEqual(list(illcanon.normal_forms(bare)), [EXPIRED])
        self.assertEqual(list(illcanon.normal_forms(bare + bare)), [EXPIRED, EXPIRED])

    def test_threads_run_at_once(self):
        messages = list(illcanon.messages(octets_of("every-part.ber")))
        wanted, found = [illcanon.normalise(message) for message in messages], []

        def run():
            for _ in range(50):
                found.append([illcanon.normalise(message) for message in messages] == wanted)

        threads = [threading.Thread(target=run) for _ in range(8)]
        for thread in threads:
            thread.start()
        for thread in threads:
            thread.join()
        self.assertEqual(found, [True] * 400)


class Refusals(unittest.TestCase):
    def refused(self, call, *octets):
        with self.assertRaises(Refused) as caught:
            call(*octets)
        it = caught.exception
        return it.offset, it.cause, it.part, it.message

    def test_each_call_refuses_alike(self):
        rows = [
            (b"", (0, "Truncated", None)),
            (EXPIRED[:-1], (32, "Truncated", None)),
            (EXPIRED + b"\0", (33, "TrailingBytes", None)),
            (bytes.fromhex("741f301d800102a2"), (7, "UnexpectedTag", None)),
            (bytes.fromhex("748030808001020000"), (7, "Missing", "Expired.transaction-id")),
            (bytes.fromhex("6280"), (0, "LeftOut", "ILL-APDU.Forward-Notification")),
        ]
        for octets, wanted in rows:
            for call in SINGLE:
                self.assertEqual(self.refused(call, octets), (*wanted, 1))
            text, refusal = illcanon.dump(octets)
            self.assertEqual((refusal.offset, refusal.cause, refusal.part, refusal.message), (*wanted, 1))
            self.assertTrue(text.startswith("message 1: refused\n"))
            self.assertEqual(self.refused(illcanon.same, octets, octets), (*wanted, 1))
            self.assertEqual(self.refused(illcanon.same, EXPIRED, octets), (*wanted, 2))

    def test_a_stream_stops_at_the_first_refusal(self):
        stream = illcanon.messages(EXPIRED + REQUEST + bytes.fromhex("748030808001020000"))
        self.assertEqual([next(stream), next(stream)], [EXPIRED, REQUEST])
        self.assertEqual(self.refused(next, stream), (7, "Missing", "Expired.transaction-id", 3))
        self.assertEqual(self.refused(list, illcanon.messages(EXPIRED + EXPIRED[:20])), (20, "Truncated", None, 2))
        forms = illcanon.normal_forms(EXPIRED + REQUEST + bytes.fromhex("748030808001020000"))
        self.assertEqual([next(forms), next(forms)], [EXPIRED, REQUEST])
        self.assertEqual(self.refused(next, forms), (7, "Missing", "Expired.transaction-id", 3))
        self.assertEqual(self.refused(list, illcanon.normal_forms(EXPIRED + EXPIRED[:20])), (20, "Truncated", None, 2))

    def test_a_stream_says_where_it_stops(self):
        for call in (illcanon.messages, illcanon.normal_forms):
            with self.assertRaises(Refused) as caught:
                list(call(EXPIRED + REQUEST + b"\x74\x00"))
            self.assertEqual(caught.exception.start, len(EXPIRED + REQUEST))
            with self.assertRaises(Refused) as caught:
                list(call(EXPIRED + EXPIRED[:20]))
            self.assertEqual(caught.exception.start, len(EXPIRED))

    def test_a_refusal_is_a_line(self):
        with self.assertRaises(ValueError) as caught:
            illcanon.normalise(bytes.fromhex("748030808001020000"))
        self.assertEqual(str(caught.exception), "refused at 7 in message 1: Missing Expired.transaction-id")

    def test_a_refusal_is_of_the_first_message_where_no_other_is_named(self):
        refused = Refused(0, "Missing")
        self.assertEqual((refused.message, refused.start, refused.part, refused.octets, refused.end_known), (1, 0, None, None, True))
        self.assertEqual(str(refused), "refused at 0 in message 1: Missing")


# Three EXTERNAL values of a RETURNED: with an OBJECT IDENTIFIER and octets, with a foreign tree, and with bits.
EXTERNALS = bytes.fromhex(text_of("externals.hex"))
EXTERNALS_TEXT = text_of("externals.txt")
SINGLE = (illcanon.normalise, illcanon.check, illcanon.show, illcanon.parse, illcanon.digest)


def worked_rows():
    """The name of each row, its profile, its octets, and its normal form or why it is refused."""
    with open(ROWS, encoding="utf-8") as file:
        for line in file:
            if line.count("|") == 3:
                name, profile, octets, outcome = line.split("|")
                yield name, {"two": "2"}.get(profile, profile), bytes.fromhex(octets), outcome.strip()


def fault_of(outcome):
    cause, part, offset = outcome.split()
    return int(offset), cause, None if part == "-" else part, 1


class Profiles(unittest.TestCase):
    def refused(self, call, *octets, profile):
        with self.assertRaises(Refused) as caught:
            call(*octets, profile=profile)
        it = caught.exception
        return it.offset, it.cause, it.part, it.message

    def is_normal_form(self, octets, form, profile):
        self.assertEqual(illcanon.normalise(octets, profile=profile), form)
        self.assertEqual(illcanon.check(octets, profile=profile), octets == form)
        self.assertTrue(illcanon.check(form, profile=profile))
        self.assertTrue(illcanon.same(octets, form, profile=profile))
        self.assertEqual(illcanon.digest(octets, profile=profile), hashlib.sha256(form).digest())
        self.assertEqual(illcanon.show(octets, profile=profile), illcanon.show(form, profile=profile))
        self.assertEqual(list(illcanon.messages(octets + form, profile=profile)), [octets, form])
        self.assertEqual(list(illcanon.normal_forms(octets + form, profile=profile)), [form, form])

    def is_refused(self, octets, fault, profile):
        for call in SINGLE:
            self.assertEqual(self.refused(call, octets, profile=profile), fault)
        self.assertEqual(self.refused(illcanon.same, octets, octets, profile=profile), fault)
        self.assertEqual(self.refused(illcanon.same, EXPIRED, octets, profile=profile), (*fault[:3], 2))
        if octets and fault[1] != "TrailingBytes":
            for call in (illcanon.messages, illcanon.normal_forms):
                self.assertEqual(self.refused(lambda *found, profile: list(call(*found, profile=profile)), octets, profile=profile), fault)

    def test_worked_rows(self):
        counts = {"2": 0, "module": 0}
        for name, profile, octets, outcome in worked_rows():
            with self.subTest(name):
                if outcome.startswith("normal "):
                    self.is_normal_form(octets, bytes.fromhex(outcome[7:]), profile)
                else:
                    self.is_refused(octets, fault_of(outcome), profile)
            counts[profile] += 1
        self.assertEqual(counts, {"2": 14, "module": 126})

    def test_profile_2_is_read_where_none_is_named(self):
        for name, forms in FILES:
            octets = octets_of(name)
            self.assertEqual(list(illcanon.messages(octets)), list(illcanon.messages(octets, profile="2")))
            self.assertEqual(b"".join(illcanon.normal_forms(octets, profile="2")), forms)
        for call in SINGLE:
            self.assertEqual(call(EXPIRED), call(EXPIRED, profile="2"))
            self.assertRaises(Refused, call, EXTERNALS)
        self.assertTrue(illcanon.same(EXPIRED, EXPIRED, profile="2"))

    def test_externals_are_shown(self):
        self.assertEqual(illcanon.show(EXTERNALS, profile="module"), EXTERNALS_TEXT)
        self.assertEqual(illcanon.show(EXTERNALS, 7, profile="module"), EXTERNALS_TEXT.replace("1", "7", 1))

    def test_another_profile_is_an_error(self):
        for profile in ("", "3", "1", "Module", "two", 2, 3, None):
            for call in (*SINGLE, illcanon.messages, illcanon.normal_forms):
                self.assertRaises(ValueError, call, EXPIRED, profile=profile)
            self.assertRaises(ValueError, illcanon.same, EXPIRED, EXPIRED, profile=profile)
        for call in (illcanon.normalise, illcanon.check, illcanon.digest, illcanon.messages, illcanon.normal_forms):
            self.assertRaises(TypeError, call, EXPIRED, "module")

    def test_random_messages_have_their_normal_forms(self):
        for profile, root in ROOTS.items():
            chance = random.Random(7)
            for _ in range(COUNT):
                apdu = random_value(chance, root)
                octets, form = Speller(chance).value(root, apdu, None), Writer().value(root, apdu, None)
                self.assertEqual(illcanon.normalise(octets, profile=profile), form, octets.hex())
                self.assertEqual(illcanon.build(illcanon.parse(octets, profile=profile), profile=profile), form, octets.hex())

    def test_changed_messages_are_judged(self):
        for profile, root in ROOTS.items():
            chance = random.Random(8)
            for _ in range(COUNT):
                octets = misspelled(chance, root, profile, chance.random() < 0.5)
                wanted, found = [], []
                try:
                    rest = octets
                    while rest:
                        apdu, size = Judge(rest, profile).message()
                        wanted.append(Writer().value(root, apdu, None))
                        rest = rest[size:]
                except Judged as fault:
                    wanted.append((fault.at, fault.cause, fault.part_name() or None, len(wanted) + 1))
                try:
                    for form in illcanon.normal_forms(octets, profile=profile):
                        found.append(form)
                except Refused as fault:
                    found.append((fault.offset, fault.cause, fault.part, fault.message))
                self.assertEqual(found, wanted, octets.hex())


class Pieces:
    """A stream that gives at most this many octets at once, by `read` alone."""

    def __init__(self, octets, most):
        self.stream, self.most = io.BytesIO(octets), most

    def read(self, size):
        return self.stream.read(min(size, self.most))


class Halting:
    """A stream that gives its items one after another: octets, None where there are none now, or an error, which it raises."""

    def __init__(self, items):
        self.items = list(items)

    def read(self, size):
        item = self.items.pop(0) if self.items else b""
        if isinstance(item, BaseException):
            raise item
        assert item is None or len(item) <= size
        return item


class Endless:
    """A stream of an element that doesn't end, in pieces of 1,440 octets as a network gives them."""

    def __init__(self):
        self.count = 0

    def read(self, size):
        piece = b"\x30\x80\x04" + b"\x01\x00\x04" * 480 if self.count == 0 else (b"\x04\x01\x00" * 481)[(self.count - 2) % 3 :]
        piece = piece[: min(size, 1440)]
        self.count += len(piece)
        return piece


INCOMPLETE = bytes.fromhex("748030808001020000")


def facts(result):
    """What a result says, as a row."""
    if isinstance(result, Message):
        return result.number, result.offset, result.octets
    return result.message, result.start, result.octets, result.offset, result.cause, result.part, result.end_known


class Results(unittest.TestCase):
    def results_are(self, octets, wanted, profile="2"):
        """The results of octets, which are the same however they come."""
        for source in (octets, bytearray(octets), io.BytesIO(octets), Pieces(octets, 1), Pieces(octets, 7), Pieces(octets, 1 << 20)):
            with within(60):
                found = list(itertools.islice(illcanon.results(source, profile=profile), len(wanted) + 1))
            self.assertEqual([facts(result) for result in found], wanted)

    def test_results_go_on_after_a_refused_message(self):
        size = len(EXPIRED)
        open_ended = bytes.fromhex("74803000000000")
        rows = [
            (1, 0, EXPIRED),
            (2, size, b"\x74\x00", 2, "Missing", "Expired.protocol-version-num", True),
            (3, size + 2, REQUEST),
            (4, size + 2 + len(REQUEST), open_ended[:6], 4, "Missing", "Expired.protocol-version-num", True),
        ]
        octets = EXPIRED + b"\x74\x00" + REQUEST + open_ended[:6]
        self.results_are(octets, rows)
        self.results_are(octets + EXPIRED, [*rows, (5, len(octets), EXPIRED)])
        self.results_are(b"", [])

    def test_results_end_where_the_end_is_unknown(self):
        size = len(EXPIRED)
        self.results_are(EXPIRED + EXPIRED[:20], [(1, 0, EXPIRED), (2, size, None, 20, "Truncated", None, False)])
        self.results_are(EXPIRED + INCOMPLETE, [(1, 0, EXPIRED), (2, size, None, 7, "Missing", "Expired.transaction-id", False)])
        self.results_are(b"\x74\xff" + EXPIRED, [(1, 0, None, 0, "BadLength", None, False)])

    def test_results_of_large_messages(self):
        refused = b"\x74\x83\x03\x00\x00" + b"\x05\x00" * 0x18000
        size = len(refused)
        rows = [(1, 0, refused, 5, "UnexpectedTag", None, True), (2, size, EXPIRED)]
        for source in (refused + EXPIRED, io.BytesIO(refused + EXPIRED), Pieces(refused + EXPIRED, 5000)):
            self.assertTrue([facts(result) for result in illcanon.results(source)] == rows)

    def test_results_of_files(self):
        for name, profile in [*((name, "2") for name, _ in FILES), ("module.ber", "module")]:
            with open(os.path.join(TOP, "examples", name), "rb") as file:
                found = list(illcanon.results(file, profile=profile))
            self.assertEqual([it.octets for it in found], list(illcanon.messages(octets_of(name), profile=profile)))
            self.assertEqual(b"".join(it.octets for it in found), octets_of(name))
            self.assertEqual([it.number for it in found], list(range(1, len(found) + 1)))

    def test_what_came_is_given_before_more_is_read(self):
        read, write = os.pipe()
        with open(read, "rb") as stream, open(write, "wb", buffering=0) as sink, within(20):
            found = illcanon.results(stream)
            for _ in range(3):
                sink.write(EXPIRED)
                self.assertEqual(next(found).octets, EXPIRED)
            os.set_blocking(read, False)
            self.assertRaises(BlockingIOError, next, illcanon.results(stream.raw))

    def test_no_octet_is_lost_where_a_stream_raises_an_error(self):
        octets = EXPIRED + b"\x74\x00" + b"\x74\x80\x30\x00\x00\x00" + REQUEST
        size = len(EXPIRED)
        wanted = [
            (1, 0, EXPIRED),
            (2, size, b"\x74\x00", 2, "Missing", "Expired.protocol-version-num", True),
            (3, size + 2, b"\x74\x80\x30\x00\x00\x00", 4, "Missing", "Expired.protocol-version-num", True),
            (4, size + 8, REQUEST),
        ]
        for error, raised in ((None, BlockingIOError), (BlockingIOError(), BlockingIOError), (OSError("fault"), OSError), (KeyError("x"), KeyError)):
            for most in (1, 7, 1000):
                pieces = [octets[at : at + most] for at in range(0, len(octets), most)]
                found, rows, errors = illcanon.results(Halting(item for piece in pieces for item in (error, piece))), [], 0
                while True:
                    try:
                        rows.append(facts(next(found)))
                    except StopIteration:
                        break
                    except raised:
                        errors += 1
                self.assertEqual((rows, errors), (wanted, len(pieces)))
                self.assertEqual(list(found), [])

    def pipe_is_read(self, stream, write, close):
        """What doesn't wait is read as far as it came, and on from there, and then to its end."""
        with within(20):
            found = illcanon.results(stream)
            self.assertRaises(BlockingIOError, next, found)
            write(EXPIRED[:20])
            for _ in range(2):
                self.assertRaises(BlockingIOError, next, found)
            write(EXPIRED[20:] + b"\x74\x00" + REQUEST[:1])
            rows = [facts(next(found)) for _ in range(2)]
            self.assertRaises(BlockingIOError, next, found)
            write(REQUEST[1:])
            rows.append(facts(next(found)))
            self.assertRaises(BlockingIOError, next, found)
            close()
            self.assertEqual(list(found), [])
        size = len(EXPIRED)
        refused = (2, size, b"\x74\x00", 2, "Missing", "Expired.protocol-version-num", True)
        self.assertEqual(rows, [(1, 0, EXPIRED), refused, (3, size + 2, REQUEST)])

    def test_streams_that_do_not_wait_are_read_on(self):
        for buffering in (0, -1):
            read, write = os.pipe()
            os.set_blocking(read, False)
            with open(read, "rb", buffering=buffering) as stream, open(write, "wb", buffering=0) as sink:
                self.pipe_is_read(stream, sink.write, sink.close)
        one, other = socket.socketpair()
        with one, other:
            one.setblocking(False)
            with one.makefile("rb") as stream:
                self.pipe_is_read(stream, other.sendall, other.close)

    def test_results_are_an_iterator_that_is_closed(self):
        stream = io.BytesIO(EXPIRED + REQUEST)
        found = illcanon.results(stream)
        self.assertTrue(iter(found) is found and isinstance(found, illcanon.Results))
        self.assertEqual(next(found).octets, EXPIRED)
        found.close()
        for _ in range(2):
            self.assertRaises(StopIteration, next, found)
        found.close()
        self.assertFalse(stream.closed)

    def test_a_result_is_read_once_at_a_time(self):
        class Turning(Pieces):
            def read(self, size):
                if self.most == 33:
                    self.most = 1000
                    next(found)
                return super().read(size)

        found = illcanon.results(Turning(EXPIRED + REQUEST, 33))
        self.assertRaises(ValueError, next, found)
        self.assertEqual([it.octets for it in found], [EXPIRED, REQUEST])

    def test_the_end_of_a_refused_message_is_looked_for_in_its_first_octets(self):
        limit = LIMIT + 1
        refused = bytes.fromhex("7480040100") + b"\x05\x00" * 524285 + b"\0\0"
        self.assertEqual(len(refused), limit)
        longer = refused[:-2] + b"\x05\x00\0\0"
        rows = [(1, 0, EXPIRED), (2, 33, refused, 2, "UnexpectedTag", None, True), (3, 33 + limit, REQUEST)]
        for octets, wanted in ((refused, rows), (longer, [rows[0], (2, 33, None, 2, "UnexpectedTag", None, False)])):
            octets = EXPIRED + octets + REQUEST
            for source in (octets, bytearray(octets), io.BytesIO(octets), Pieces(octets, 100_000)):
                self.assertTrue([facts(result) for result in illcanon.results(source, limit=limit)] == wanted)
            self.assertEqual(len(list(illcanon.results(octets, limit=limit + 2))), 3)
        for count, is_known in ((1 << 24, True), ((1 << 24) + 1, False)):
            octets = b"\x74\x80\x04\x84" + (count - 10).to_bytes(4, "big") + bytes(count - 8)
            self.assertEqual([len(octets), [it.end_known for it in illcanon.results(octets)]], [count, [is_known]])

    def test_few_octets_of_an_endless_message_are_held(self):
        stream, limit = Endless(), LIMIT + 1
        tracemalloc.start()
        try:
            with within(120):
                found = [facts(result) for result in illcanon.results(stream, limit=limit)]
            peak = tracemalloc.get_traced_memory()[1]
        finally:
            tracemalloc.stop()
        self.assertEqual(found, [(1, 0, None, 0, "UnexpectedTag", None, False)])
        self.assertEqual(stream.count, limit)
        self.assertLess(peak, 4 * limit)

    def test_a_limit_has_room_for_a_message_and_an_octet(self):
        for limit in (LIMIT, 0, -1, True):
            self.assertRaises(ValueError, illcanon.results, EXPIRED, limit=limit)
        for limit in (None, "2000000", 2e6):
            self.assertRaises(TypeError, illcanon.results, EXPIRED, limit=limit)
        self.assertRaises(TypeError, illcanon.results, EXPIRED, 2_000_000)
        octets = greatest_message() + EXPIRED
        for source in (octets, io.BytesIO(octets), Pieces(octets, 1 << 20)):
            self.assertTrue([it.octets for it in illcanon.results(source, limit=LIMIT + 1)] == [octets[:LIMIT], EXPIRED])

    def test_a_result_is_whole_in_another_process(self):
        for result in illcanon.results(EXPIRED + b"\x74\x00" + EXPIRED[:20]):
            again = pickle.loads(pickle.dumps(result))
            self.assertEqual((type(again), facts(again), str(again)), (type(result), facts(result), str(result)))

    def test_a_result_is_a_line(self):
        lines = [str(result) for result in illcanon.results(b"\x74\x00" + EXPIRED[:20])]
        wanted = ["refused at 2 in message 1: Missing Expired.protocol-version-num", "refused at 20 in message 2: Truncated; its end is unknown"]
        self.assertEqual(lines, wanted)

    def test_other_sources_are_errors(self):
        for source in ("text", 7, None, ["x"]):
            self.assertRaises(TypeError, illcanon.results, source)
        self.assertRaises(TypeError, list, illcanon.results(io.StringIO("text")))
        self.assertRaises(ValueError, illcanon.results, EXPIRED, profile="3")

    def test_causes_are_those_of_the_header(self):
        with open(os.path.join(TOP, "bindings", "c", "illcanon.h"), encoding="utf-8") as file:
            words = re.findall(r"ILLCANON_(\w+) = (\d+)", file.read().partition("enum illcanon_cause {")[2].partition("};")[0])
        names = {int(number): word.title().replace("_", "") for word, number in words}
        self.assertEqual(dict(enumerate(illcanon.CAUSES, 1)), names)
        for number, name in names.items():
            self.assertEqual(Refused(0, name).cause_number, number)

    def test_clauses_are_those_of_the_definition(self):
        with open(os.path.join(TOP, "crates", "ill_schema", "specs", "Causes.antt"), encoding="utf-8") as file:
            clauses = dict(re.findall(r'^cause_clause \(?Cause\.(\w+)(?: part\))? = codes "(.*)"$', file.read(), re.M))
        self.assertEqual({name: Refused(0, name).clause for name in illcanon.CAUSES}, clauses)
        with self.assertRaises(Refused) as caught:
            illcanon.normalise(b"\x74\x80\x00\x01")
        self.assertEqual(caught.exception.clause, "X.690, 8.1.5")


# The value of EXPIRED.
VALUE = {
    "protocol-version-num": 2,
    "transaction-id": {"transaction-group-qualifier": {"general": "G"}, "transaction-qualifier": {"general": "Q"}},
    "service-date-time": {"date-time-of-this-service": {"date": "20240229"}},
}
GROUP = ("value", "transaction-id", "transaction-group-qualifier")
DATE_TIME = ("value", "service-date-time", "date-time-of-this-service")
ITEM = ("value", "supplemental-item-description", 0)


def expired(**changed):
    return {"apdu": "Expired", "value": {**VALUE, **changed}}


def grouped(qualifier):
    return expired(**{"transaction-id": {**VALUE["transaction-id"], "transaction-group-qualifier": qualifier}})


def dated(**parts):
    return expired(**{"service-date-time": {"date-time-of-this-service": parts}})


def requested(**changed):
    """The dict of REQUEST, without the parts that have their defaults."""
    messages = {"can-send-received": False, "can-send-returned": False, "requester-shipped": 1, "requester-checked-in": 1}
    value = {**VALUE, "ill-service-type": ["loan"], "requester-optional-messages": messages, "item-id": {}}
    return {"apdu": "ILL-Request", "value": {**value, **changed}}


def returned(encoding, **named):
    external = {**named, "encoding": encoding}
    return {"apdu": "Returned", "value": {**VALUE, "supplemental-item-description": [external], "date-returned": "20240229"}}


# A line or a dict that says no message, and its cause and path. No result is the program's own.
UNBUILT = [
    ("", "NotJson", ()),
    ("{'apdu': 'Expired'}", "NotJson", ()),
    (b'{"apdu":"\xff"}', "NotJson", ()),
    ('{"apdu":"\ud800"}', "NotJson", ()),
    ("[" * 200 + "]" * 200, "NotJson", ()),
    (b" " * (1 << 24), "NotJson", ()),
    (b" " * ((1 << 24) + 1), "LineTooLong", ()),
    ("[]", "WrongType", ()),
    ({"apdu": "Expired", "value": []}, "WrongType", ("value",)),
    (expired(**{"protocol-version-num": True}), "WrongType", ("value", "protocol-version-num")),
    (expired(**{"protocol-version-num": "version-2"}), "WrongType", ("value", "protocol-version-num")),
    (expired(**{"a/b~1": 1}), "UnknownMember", ("value", "a/b~1")),
    (expired(**{"0": 1}), "UnknownMember", ("value", "0")),
    ({**expired(), "grüße": 1}, "UnknownMember", ("grüße",)),
    ('{"apdu":"Expired","value":{},"value":{}}', "RepeatedMember", ("value",)),
    ({"apdu": "Forward-Notification", "value": {}}, "LeftOut", ("apdu",)),
    (expired(**{"expired-extensions": []}), "LeftOut", ("value", "expired-extensions")),
    ({"value": VALUE}, "MissingMember", ("apdu",)),
    ({"apdu": "Expired"}, "MissingMember", ("value",)),
    ({"apdu": "Expired", "value": {"protocol-version-num": 2}}, "MissingMember", ("value", "transaction-id")),
    (grouped({}), "NotOneMember", GROUP),
    (grouped({"general": "G", "visible": "G"}), "NotOneMember", GROUP),
    ({"apdu": "expired", "value": VALUE}, "UnknownName", ("apdu",)),
    (requested(**{"transaction-type": "complex"}), "UnknownName", ("value", "transaction-type")),
    ({**expired(), "profile": "3"}, "UnknownName", ("profile",)),
    (requested(**{"transaction-type": {"number": 1, "name": "chained"}}), "OtherName", ("value", "transaction-type", "name")),
    (expired(**{"protocol-version-num": 2.0}), "NotWhole", ("value", "protocol-version-num")),
    (expired(**{"protocol-version-num": 2**63}), "NumberTooLong", ("value", "protocol-version-num")),
    (expired(**{"protocol-version-num": -(10**400)}), "NumberTooLong", ("value", "protocol-version-num")),
    (grouped({"general": "\u0100"}), "BadCharacter", (*GROUP, "general")),
    (grouped({"visible": "a\nb"}), "BadText", (*GROUP, "visible")),
    (dated(date="20230229"), "BadDate", (*DATE_TIME, "date")),
    (dated(date="20240229", time="250000"), "BadTime", (*DATE_TIME, "time")),
    (grouped({"general": "Q" * (1 << 20)}), "NormalTooLong", ()),
    ({**expired(), "profile": "module"}, "OtherProfile", ("profile",)),
]
UNBUILT_OF_MODULE = [
    ({**expired(), "profile": "2"}, "OtherProfile", ("profile",)),
    ({"apdu": "Forward-Notification", "value": {}}, "MissingMember", ("value", "protocol-version-num")),
    (returned({"octet-aligned": {"octets": "0G"}}), "BadHexadecimal", (*ITEM, "encoding", "octet-aligned", "octets")),
    (returned({"octet-aligned": {"octets": "0A"}}), "BadHexadecimal", (*ITEM, "encoding", "octet-aligned", "octets")),
    (returned({"single-asn1-type": {"foreign": "123"}}), "BadHexadecimal", (*ITEM, "encoding", "single-asn1-type", "foreign")),
    (returned({"single-asn1-type": {"foreign": "05000500"}}), "BadForeign", (*ITEM, "encoding", "single-asn1-type", "foreign")),
    (returned({"single-asn1-type": {"foreign": "058100"}}), "BadForeign", (*ITEM, "encoding", "single-asn1-type", "foreign")),
    (returned({"arbitrary": {"bits": 5, "octets": "f4"}}), "BadBits", (*ITEM, "encoding", "arbitrary")),
    (returned({"arbitrary": {"bits": 8, "octets": "f800"}}), "BadBits", (*ITEM, "encoding", "arbitrary")),
    (returned({"arbitrary": {"bits": -1, "octets": ""}}), "NumberTooLong", (*ITEM, "encoding", "arbitrary", "bits")),
    (returned({"octet-aligned": {"octets": ""}}, **{"direct-reference": "3.1"}), "BadOid", (*ITEM, "direct-reference")),
    (returned({"octet-aligned": {"octets": ""}}, **{"direct-reference": "1.02"}), "BadOid", (*ITEM, "direct-reference")),
]


class Built(unittest.TestCase):
    """Messages that are built of dicts and of lines of JSON."""

    def is_not_built(self, message, cause, path, profile):
        with self.assertRaises(NotBuilt) as caught:
            illcanon.build(message, profile=profile)
        it = caught.exception
        steps = [str(step).replace("~", "~0").replace("/", "~1") for step in path]
        self.assertEqual((it.cause, it.path, it.pointer), (cause, path, "".join("/" + step for step in steps)))
        self.assertEqual(illcanon.BUILD_CAUSES[it.cause_number - 1], cause)

    def test_what_is_parsed_is_built(self):
        for name, profile in [*((name, "2") for name, _ in FILES), ("module.ber", "module")]:
            for message in illcanon.messages(octets_of(name), profile=profile):
                found, form = illcanon.parse(message, profile=profile), illcanon.normalise(message, profile=profile)
                self.assertEqual(illcanon.build(found, profile=profile), form)
                line = json.dumps(found, indent=1, sort_keys=True, ensure_ascii=False)
                for same in (line, line.encode(), bytearray(line.encode()), memoryview(line.encode())):
                    self.assertEqual(illcanon.build(same, profile=profile), form)

    def test_a_dict_is_built(self):
        self.assertEqual(illcanon.build(expired()), EXPIRED)
        self.assertEqual(illcanon.build({**expired(), "profile": "2", "number": None, "octets": "x"}), EXPIRED)
        self.assertEqual(illcanon.build({**expired(), "profile": "module"}, profile="module"), EXPIRED)
        self.assertEqual(illcanon.build(requested()), REQUEST)
        for kind in (1, "simple", {"number": 1, "name": "simple"}, {"name": "simple", "number": 1}):
            self.assertEqual(illcanon.build(requested(**{"transaction-type": kind, "retry-flag": False})), REQUEST)

    def test_a_dict_is_built_with_defaults(self):
        self.assertEqual(illcanon.build(requested(), defaults=True), REQUEST_WITH_DEFAULTS)
        self.assertEqual(illcanon.build(requested(), profile="module", defaults=True), REQUEST_WITH_DEFAULTS)
        self.assertEqual(illcanon.build(illcanon.parse(REQUEST), defaults=True), REQUEST_WITH_DEFAULTS)
        self.assertEqual(illcanon.build(requested(**{"transaction-type": 2}), defaults=True), REQUEST_WITH_DEFAULTS.replace(b"\x85\1\1", b"\x85\1\2"))
        self.assertEqual(illcanon.normalise(REQUEST_WITH_DEFAULTS), REQUEST)
        self.assertEqual(illcanon.build(expired(), defaults=True), EXPIRED)
        with self.assertRaises(illcanon.NotBuilt):
            illcanon.build({}, defaults=True)

    def test_the_greatest_message_is_built(self):
        message = greatest_message()
        self.assertTrue(illcanon.build(illcanon.parse(message)) == message)
        self.assertTrue(illcanon.build(illcanon.parse(message), defaults=True) == message)

    def test_numbers_are_written_in_full(self):
        for number in (2**63 - 1, -(2**63), 2**53 + 1, 0, -1):
            octets = illcanon.build(expired(**{"protocol-version-num": number}))
            self.assertEqual(illcanon.parse(octets)["value"]["protocol-version-num"], number)

    def test_each_line_has_its_fault(self):
        for profile, rows in (("2", UNBUILT), ("module", UNBUILT_OF_MODULE)):
            for message, cause, path in rows:
                with self.subTest(str(message)[:200], profile=profile):
                    self.is_not_built(message, cause, path, profile)
        self.assertEqual({cause for _, cause, _ in UNBUILT + UNBUILT_OF_MODULE}, set(illcanon.BUILD_CAUSES))

    def test_a_fault_is_a_line(self):
        faults = [NotBuilt("NotJson"), NotBuilt("MissingMember", "/value/transaction-id")]
        self.assertEqual([str(it) for it in faults], ["not built: NotJson", "not built at /value/transaction-id: MissingMember"])
        for it in faults:
            again = pickle.loads(pickle.dumps(it))
            self.assertEqual((type(again), again.cause, again.pointer), (NotBuilt, it.cause, it.pointer))
            self.assertIsInstance(it, ValueError)

    def test_what_is_no_json_is_an_error(self):
        for wrong in (expired(x=b"x"), expired(x={1}), 7, None, [expired()]):
            self.assertRaises(TypeError, illcanon.build, wrong)
        self.assertRaises(ValueError, illcanon.build, expired(x=float("nan")))
        self.assertRaises(TypeError, illcanon.build, expired(), "module")
        for profile in ("", "3", "Module", 2, None):
            self.assertRaises(ValueError, illcanon.build, expired(), profile=profile)

    def test_causes_are_those_of_the_header(self):
        with open(os.path.join(TOP, "bindings", "c", "illcanon.h"), encoding="utf-8") as file:
            words = re.findall(r"ILLCANON_BUILD_(\w+) = (\d+)", file.read().partition("enum illcanon_build_cause {")[2].partition("};")[0])
        self.assertEqual([word.title().replace("_", "") for word, _ in words], list(illcanon.BUILD_CAUSES))
        self.assertEqual([int(number) for _, number in words], list(range(1, 23)))


# Calls that end with STATUS, whatever they are given, three of them with SIZE as their size, and 22 causes.
WRONG_LIBRARY = """
#include <stddef.h>
#include <stdint.h>
#include <string.h>
enum { ILLCANON_DONE = 0, ILLCANON_UNKNOWN_CAUSE = 7 };
#ifdef VERSION
uint32_t illcanon_version(uint8_t *buffer, size_t room, size_t *size) {
    (void)room;
    memcpy(buffer, VERSION, *size = strlen(VERSION));
    return ILLCANON_DONE;
}
#endif
uint32_t illcanon_cause_name(uint32_t cause, uint8_t *buffer, size_t room, size_t *size) {
    (void)room;
    *buffer = 'X';
    *size = 1;
    return cause <= 22 ? ILLCANON_DONE : ILLCANON_UNKNOWN_CAUSE;
}
uint32_t illcanon_cause_clause(uint32_t cause, uint8_t *buffer, size_t room, size_t *size) {
    return illcanon_cause_name(cause, buffer, room, size);
}
uint32_t illcanon_build_cause_name(uint32_t cause, uint8_t *buffer, size_t room, size_t *size) {
    return illcanon_cause_name(cause, buffer, room, size);
}
uint32_t illcanon_normalise_as(uint32_t profile, const uint8_t *octets, size_t count, uint8_t *buffer, size_t room, size_t *size) {
    *size = SIZE;
    return STATUS;
}
uint32_t illcanon_next_as(uint32_t profile, const uint8_t *octets, size_t count, size_t *size) {
    *size = SIZE;
    return STATUS;
}
uint32_t illcanon_frame(const uint8_t *octets, size_t count, size_t *size) {
    *size = SIZE;
    return STATUS;
}
#define CALL(name) uint32_t name(void) { return STATUS; }
CALL(illcanon_show_as)
CALL(illcanon_json_as)
CALL(illcanon_build_as)
CALL(illcanon_build_with_defaults)
CALL(illcanon_dump_as)
CALL(illcanon_digest_as)
CALL(illcanon_check_as)
CALL(illcanon_same_as)
CALL(illcanon_normalise_next_as)
"""
# A call of each function. It prints the name of the error that each raises.
CALL_EACH = """
import illcanon
first = lambda call: next(call(b"x"))
calls = [illcanon.normalise, illcanon.check, illcanon.show, illcanon.parse, illcanon.digest, illcanon.dump, illcanon.frame]
for call in [*calls, lambda octets: illcanon.same(octets, octets), illcanon.build]:
    try:
        print(call(b"x"))
    except Exception as error:
        print(type(error).__name__)
for call in (illcanon.messages, illcanon.normal_forms, illcanon.results):
    try:
        print(first(call))
    except Exception as error:
        print(type(error).__name__)
"""
CALL_SIZED = """
import illcanon
for call in (illcanon.normalise, lambda octets: next(illcanon.messages(octets)), lambda octets: next(illcanon.results(octets))):
    try:
        print(call(b"x"))
    except Exception as error:
        print(type(error).__name__)
"""
# What each call makes of 64 MiB of octets in little more memory.
LARGE = """
import illcanon, resource
octets = bytes(1 << 26)
resource.setrlimit(resource.RLIMIT_AS, (1 << 28, 1 << 28))
for call in (illcanon.normalise, illcanon.show, illcanon.parse, illcanon.digest, illcanon.check):
    try:
        call(octets)
    except illcanon.Refused as refused:
        print(refused.offset)
print(illcanon.dump(octets)[1].offset)
"""


class Libraries(unittest.TestCase):
    """What the package does with a library that isn't its own, or doesn't do as its header says."""

    def run_with(self, program, *defined):
        with tempfile.TemporaryDirectory() as folder:
            source, made = os.path.join(folder, "wrong.c"), os.path.join(folder, "wrong.so")
            with open(source, "w", encoding="ascii") as file:
                file.write(WRONG_LIBRARY)
            subprocess.run(["cc", "-shared", "-fPIC", "-w", "-o", made, *defined, source], check=True)
            return self.run_python(program, {**os.environ, "ILLCANON_LIBRARY": made})

    def run_python(self, program, environment=None):
        return subprocess.run([sys.executable, "-c", program], env=environment, capture_output=True, text=True, check=False, timeout=60)

    def test_a_library_of_another_version_is_refused(self):
        first, _, last = illcanon.__version__.rpartition(".")
        rows = [([], "has no illcanon_version")]
        for version in ("0.1.9", f"{first}.{int(last) + 1}", f"{first}.{last}0", f"{first}.", first, ""):
            rows.append(([f'-DVERSION="{version}"'], f"is libillcanon {version}, and"))
        for defined, words in rows:
            done = self.run_with("import illcanon", *defined, "-DSTATUS=0", "-DSIZE=0")
            self.assertEqual(done.returncode, 1)
            line = done.stderr.splitlines()[-1]
            self.assertTrue(line.startswith("ImportError: ") and words in line and illcanon.__version__ in line, line)

    def test_an_unknown_status_is_an_error(self):
        version = f'-DVERSION="{illcanon.__version__}"'
        # no size is written, and no cause is named 0
        rows = [(status, ["SystemError"] * 12) for status in (4, 6, 7, 99)]
        rows.append((5, ["MemoryError"] * 6 + ["SystemError"] + ["MemoryError"] * 5))
        rows.append((1, ["SystemError"] * 6 + ["ValueError"] + ["SystemError"] * 5))
        for status, wanted in rows:
            done = self.run_with(CALL_EACH, version, f"-DSTATUS={status}", "-DSIZE=0")
            self.assertEqual((done.stdout.split(), done.stderr), (wanted, ""), status)

    def test_a_size_that_can_not_be_is_an_error(self):
        version = f'-DVERSION="{illcanon.__version__}"'
        for status, size, wanted in [(0, 1000, ["SystemError"] * 3), (0, 0, ["b''", "SystemError", "SystemError"])]:
            done = self.run_with(CALL_SIZED, version, f"-DSTATUS={status}", f"-DSIZE={size}")
            self.assertEqual((done.stdout.split(), done.stderr), (wanted, ""), size)

    def test_large_octets_take_no_room(self):
        done = self.run_python(LARGE)
        self.assertEqual((done.stdout.split(), done.stderr), (["0"] * 6, ""))

    def test_octets_end_where_they_end(self):
        message = octets_of("every-part.ber")[: len(next(illcanon.messages(octets_of("every-part.ber"))))]

        class Longer(bytes):
            def __len__(self):
                return len(message)

        front = Longer(message[:70])
        for call in SINGLE:
            with self.assertRaises(Refused) as caught:
                call(front)
            self.assertEqual((caught.exception.offset, caught.exception.cause), (70, "Truncated"))
        self.assertEqual([facts(result)[3:5] for result in illcanon.results(front)], [(70, "Truncated")])
        self.assertIsNone(illcanon.frame(front))
        self.assertRaises(Refused, list, illcanon.messages(front))


def octets_in(vector, name="octets", runs="runs"):
    if name in vector:
        return bytes.fromhex(vector[name])
    return b"".join(bytes.fromhex(unit) * count for unit, count in vector.get(runs, []))


def line_in(vector):
    """The octets of a line."""
    if "line_octets" in vector:
        return bytes.fromhex(vector["line_octets"])
    return "".join(unit * count for unit, count in vector.get("line_runs", [(vector.get("line"), 1)])).encode()


class Vectors(unittest.TestCase):
    """The test vectors of vectors/, whose results are written from the rules, in each profile that they are of."""

    def vectors(self, wanted):
        for name in sorted(glob.glob(os.path.join(TOP, "vectors", "*.json"))):
            with open(name, encoding="utf-8") as file:
                book = json.load(file)
            for group in book.get("groups", []):
                for vector in group["vectors"]:
                    kind = "streams" if "messages" in vector else "messages" if "octets" in vector or "runs" in vector else "lines"
                    if kind == wanted:
                        for profile in vector.get("profiles", [book.get("profile", "2")]):
                            yield vector, profile

    def result_of(self, call):
        """What a call makes of octets, and why it refuses any."""
        try:
            return call(), None
        except Refused as it:
            return None, (it.cause, it.offset, it.part)

    def test_messages(self):
        count = 0
        for vector, profile in self.vectors("messages"):
            octets, count = octets_in(vector), count + 1
            normal, fault = self.result_of(lambda: illcanon.normalise(octets, profile=profile))
            with self.subTest(vector["id"], profile=profile):
                if vector["result"] == "valid":
                    wanted = octets_in(vector, "normal", "normal_runs")
                    self.assertEqual((normal, fault), (wanted, None))
                    self.assertEqual(illcanon.digest(octets, profile=profile), hashlib.sha256(wanted).digest())
                    self.assertEqual(illcanon.check(octets, profile=profile), octets == wanted)
                    self.assertEqual(list(illcanon.messages(octets, profile=profile)), [octets])
                    self.assertEqual(illcanon.build(illcanon.parse(octets, profile=profile), profile=profile), wanted)
                else:
                    self.assertEqual(fault, (vector["cause"], vector["offset"], vector.get("part")))
        self.assertGreater(count, 10_000)

    def test_lines(self):
        count = 0
        for vector, profile in self.vectors("lines"):
            line, count = line_in(vector), count + 1
            with self.subTest(vector["id"], profile=profile):
                if vector["result"] == "valid":
                    self.assertEqual(illcanon.build(line, profile=profile), octets_in(vector, "normal", "normal_runs"))
                    continue
                with self.assertRaises(NotBuilt) as caught:
                    illcanon.build(line, profile=profile)
                self.assertEqual((caught.exception.cause, caught.exception.pointer), (vector["cause"], vector["pointer"]))
        self.assertGreater(count, 2_000)

    def test_streams(self):
        for vector, profile in self.vectors("streams"):
            if vector["messages"] > 1000:
                continue
            octets = octets_in(vector)
            normalise = functools.partial(illcanon.normalise, profile=profile)
            one_by_one = map(normalise, illcanon.messages(octets, profile=profile))
            for found in (one_by_one, illcanon.normal_forms(octets, profile=profile)):
                forms, fault = [], None
                try:
                    for form in found:
                        forms.append(form)
                except Refused as it:
                    fault = it.cause, it.offset, it.part
                with self.subTest(vector["id"], profile=profile):
                    self.assertEqual(b"".join(forms), octets_in(vector, "normal", "normal_runs"))
                    wanted = None if vector["result"] == "valid" else (vector["cause"], vector["offset"], vector.get("part"))
                    self.assertEqual(fault, wanted)


if __name__ == "__main__":
    unittest.main()
