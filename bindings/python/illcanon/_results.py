"""The results of a stream of messages, which go on after one that is refused."""
from __future__ import annotations

import ctypes
import functools
import operator
import os
import threading
from dataclasses import dataclass
from typing import Any, Callable, Iterator, List, Optional, Protocol, Union

from ._calls import LIMIT, Octets, Profile, Refused, Status, _address, _bytes, _check_front, _number_of, _raise, _refused
from ._library import Refusal, library

# The least number of octets that are asked for at once.
PIECE = 65536

# The most octets of a refused message that are held, where the caller names no other number.
MOST_HELD = 16 * LIMIT


class Stream(Protocol):
    """What octets are read from, such as a file that is opened in binary mode."""

    def read(self, size: int, /) -> Optional[bytes]:
        ...


@dataclass(frozen=True)
class Message:
    """A message of a stream, as it is spelled: its number, from 1, with refused ones counted; how many octets come before it; its octets."""

    number: int
    offset: int
    octets: bytes


class Results(Iterator[Union[Message, Refused]]):
    """The results of octets or of a stream, one after another, as `results` makes them.

    Where the stream raises an error, so does `next`, and no octet is lost: the next `next` goes on. That is so of `BlockingIOError`, too,
    which is raised where a stream that doesn't wait has no octets. One thread at a time may call `next`; in another one it is a `ValueError`.
    """

    def __init__(self, profile: int, source: _Input) -> None:
        self._profile = profile
        self._source = source
        self._number = 1
        self._turn = threading.Lock()

    def __iter__(self) -> Results:
        return self

    def __next__(self) -> Union[Message, Refused]:
        self._begin()
        try:
            if len(self._source) == 0 and not self._source.more():
                self._source = _no_input()
                raise StopIteration
            result = _result(self._profile, self._source, self._number)
            self._number += 1
            if isinstance(result, Refused) and not result.end_known:
                self._source = _no_input()
            return result
        finally:
            self._turn.release()

    def close(self) -> None:
        """Ends the results, and drops the octets that are held. The stream stays open."""
        self._begin()
        self._source = _no_input()
        self._turn.release()

    def _begin(self) -> None:
        if not self._turn.acquire(blocking=False):
            raise ValueError("a result is being read")


def results(source: Union[Octets, Stream], *, profile: Profile = "2", limit: int = MOST_HELD) -> Results:
    """The messages in the profile of octets, or of a stream that is read to its end, one after another, each as a `Message` or a `Refused`.

    After a refused message whose end is known, by its length or its end marks, the next one follows. Where it is not known, `end_known`
    is False, and that result is the last one. The end is looked for in the first `limit` octets of a refused message, and is not known
    after them; a `limit` of less than 1,048,577 is a `ValueError`. A stream is read piece by piece, and at most `limit` octets of it are
    held at once; each message, refused or not, is whole in memory.
    """
    number = _number_of(profile)
    limit = operator.index(limit)
    if limit <= LIMIT:
        raise ValueError(f"limit is {limit}, and a message of {LIMIT} octets and one octet more have no room in it")
    return Results(number, _input_of(source, limit))


class _Input:
    """An input: the octets from `offset` on that are held, of which a message has at most `limit`, and what reads more, if there is more."""

    def __init__(self, octets: bytes, read: Optional[Callable[[int], Optional[bytes]]], limit: int) -> None:
        self.offset = 0
        self._octets = octets
        self._at = 0
        self._read = read
        self._limit = limit

    def __len__(self) -> int:
        return min(len(self._octets) - self._at, self._limit)

    def address(self) -> int:
        """Where the octets that are held are in memory, until more are read."""
        return _address(self._octets) + self._at

    def more(self) -> bool:
        """Reads at most as many octets as are held, or a piece. False at the end, and where there are as many as a message may have."""
        count = len(self)
        if self._read is None or count == self._limit:
            return False
        piece = self._read(min(max(PIECE, count), self._limit - count))
        if piece is None:
            raise BlockingIOError("the stream has no octets now, and doesn't wait for them")
        if not piece:
            self._read = None
            return False
        self._octets, self._at = self._octets[self._at :] + _bytes(piece), 0
        return True

    def take(self, size: int) -> bytes:
        """The next octets, which are no longer held."""
        octets = self._octets[self._at : self._at + size]
        self._at += size
        self.offset += size
        return octets


def _no_input() -> _Input:
    return _Input(b"", None, MOST_HELD)


def _input_of(source: Union[Octets, Stream], limit: int) -> _Input:
    """The input that octets or a stream are."""
    try:
        view = memoryview(source)  # type: ignore[arg-type]
    except TypeError:
        if not (hasattr(source, "read1") or hasattr(source, "read")):
            raise
        return _Input(b"", functools.partial(_piece_of, source), limit)
    return _Input(source if type(source) is bytes else bytes(view), None, limit)


def _piece_of(stream: Any, size: int) -> Optional[bytes]:
    """What a stream gives at once of at most this many octets, where it can; it is not waited for to give more. None where it gives none now."""
    if not hasattr(stream, "read1"):
        piece: Optional[bytes] = stream.read(size)
        return piece
    piece = stream.read1(size)
    if piece is None or len(piece) > 0 or _waits(stream):
        return piece
    # `read1` gives no octets at the end, and also where the stream doesn't wait; of one octet `read` tells these apart.
    piece = stream.read(1)
    return piece


def _waits(stream: Any) -> bool:
    """Whether a stream waits for octets, as far as the system knows it."""
    try:
        return os.get_blocking(stream.fileno())
    except (AttributeError, OSError, TypeError, ValueError):
        return True


def _result(profile: int, source: _Input, number: int) -> Union[Message, Refused]:
    """The result of the message that an input begins with, whose octets are taken."""
    start, size, refusal = source.offset, ctypes.c_size_t(), Refusal()
    status = _call(library.illcanon_next_as, [profile], source, ctypes.byref(size), ctypes.byref(refusal))
    if status == Status.DONE:
        _check_front(status, size.value, len(source))
        return Message(number, start, source.take(size.value))
    if status == Status.NEEDS_MORE:
        refused = Refused(len(source), "Truncated", None, number, start=start)
    elif status == Status.REFUSED:
        refused = _refused(refusal, number, start)
    else:
        _raise(status, refusal)
    end = _end_of(source)
    refused.end_known = end is not None
    refused.octets = None if end is None else source.take(end)
    return refused


def _end_of(source: _Input) -> Optional[int]:
    """How many octets the element has that an input begins with; None where its end isn't known."""
    size = ctypes.c_size_t()
    status = _call(library.illcanon_frame, [], source, ctypes.byref(size))
    if status in (Status.REFUSED, Status.NEEDS_MORE):
        return None
    _check_front(status, size.value, len(source))
    return size.value


def _call(call: Callable[..., int], before: List[int], source: _Input, *memory: object) -> int:
    """Makes a call on the octets that are held, and again while it needs more and there are more."""
    while True:
        status = call(*before, source.address(), len(source), *memory)
        if status != Status.NEEDS_MORE or not source.more():
            return status
