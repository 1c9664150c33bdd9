"""Messages of the ISO interlibrary loan protocol (ILL APDUs of ISO 10161-1, in BER), and their one DER normal form.

>>> normal = illcanon.normalise(octets)
>>> illcanon.same(octets, normal)
True

Each call takes octets as `bytes`, a `bytearray`, a `memoryview` or an `mmap`. Octets that are not exactly one message
are refused: the call raises `Refused`, with the offset and the cause. `parse` gives a message as a dict of its parts,
and `build` makes the normal form of such a dict, or raises `NotBuilt`, with the place and the cause:

>>> message = illcanon.parse(octets)
>>> message["value"]["service-date-time"]["date-time-of-this-service"]["date"] = "20270101"
>>> illcanon.build(message)

`results` goes through a stream, and on after a refused message:

>>> for result in illcanon.results(open("messages.ber", "rb")):
...     if isinstance(result, illcanon.Refused):
...         print(result.start, result)
...     else:
...         print(result.offset, illcanon.parse(result.octets)["apdu"])

A stream that doesn't wait raises `BlockingIOError` where it has no octets, and the next `next` goes on. Of a refused
message at most `limit` octets are held, 16,777,216 where none is named.

A message is read in profile 2, or with `profile="module"` in the module profile, which has every row of the module
of ISO 10161-1; another profile is a `ValueError`. `CAUSES` has the names of the causes, in the order of their
numbers from 1, and `BUILD_CAUSES` those of the causes of `NotBuilt`. The calls are those of libillcanon, which is proved; what this package does between them and Python is
tested. A library of another version is an `ImportError`, and one that doesn't do as its header says a `SystemError`.
"""
from __future__ import annotations

from ._calls import NotBuilt, Profile, Refused, build, check, digest, dump, frame, messages, normal_forms, normalise, parse, same, show
from ._library import BUILD_CAUSES, CAUSES, VERSION
from ._results import Message, Results, results

__all__ = [
    "BUILD_CAUSES",
    "CAUSES",
    "Message",
    "NotBuilt",
    "Profile",
    "Refused",
    "Results",
    "build",
    "check",
    "digest",
    "dump",
    "frame",
    "messages",
    "normal_forms",
    "normalise",
    "parse",
    "results",
    "same",
    "show",
]
__version__ = VERSION
