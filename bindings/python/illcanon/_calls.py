"""The calls of libillcanon, as functions over bytes."""
from __future__ import annotations

import ctypes
import enum
import json
import mmap
from typing import Any, Callable, Dict, Iterator, Literal, NoReturn, Optional, Tuple, Union

from ._library import BUILD_CAUSES, CAUSES, CLAUSES, Refusal, library

Octets = Union[bytes, bytearray, memoryview, mmap.mmap]
Profile = Literal["2", "module"]

# The profiles by their names, with their numbers in C.
PROFILES = {"2": 2, "module": 3}

# A place in a value of JSON: names of members, and numbers of items from 0.
Path = Tuple[Union[str, int], ...]

# The greatest number of octets of a message, and of its normal form.
LIMIT = 1048576


class Status(enum.IntEnum):
    """How a call ends."""

    DONE = 0
    REFUSED = 1
    SECOND_REFUSED = 2
    NEEDS_MORE = 3
    NO_ROOM = 4
    OUT_OF_MEMORY = 5
    UNKNOWN_PROFILE = 6
    UNKNOWN_CAUSE = 7


class Refused(ValueError):
    """Octets that are not a message.

    `offset` counts octets from the first one of the message, `cause` is a word such as `Missing` (docs/DEFINITIONS.md lists them), and
    `cause_number` its number in C. `clause` is the clause of the standard that is broken, and `part` the part that is missing or left out,
    such as `Expired.service-date-time`, or None.

    Where there are more messages, `message` is the number of this one, from 1: of `same`, `messages`, `normal_forms` and `results`. Of the
    last three `start` is the number of octets before it. Of `results`, `octets` is the message that is refused, and `end_known` is False
    where nothing in its first `limit` octets says where it ends: then `octets` is None, and no result follows.
    """

    def __init__(
        self,
        offset: int,
        cause: str,
        part: Optional[str] = None,
        message: int = 1,
        *,
        start: int = 0,
        octets: Optional[bytes] = None,
        end_known: bool = True,
    ) -> None:
        self.offset = offset
        self.cause = cause
        self.part = part
        self.message = message
        self.start = start
        self.octets = octets
        self.end_known = end_known
        super().__init__(offset, cause, part, message)

    @property
    def cause_number(self) -> int:
        """The number of the cause in C."""
        return CAUSES.index(self.cause) + 1

    @property
    def clause(self) -> str:
        """The clause of X.690, X.680 or ISO 10161-1 that is broken, or `limit of illcanon`."""
        return CLAUSES[CAUSES.index(self.cause)]

    def __str__(self) -> str:
        part = f" {self.part}" if self.part else ""
        end = "" if self.end_known else "; its end is unknown"
        return f"refused at {self.offset} in message {self.message}: {self.cause}{part}{end}"


class NotBuilt(ValueError):
    """A line of JSON, or a dict, that says no message.

    `cause` is a word such as `MissingMember` (`BUILD_CAUSES` lists them), and `cause_number` its number in C. `pointer` is the place as a
    JSON pointer (RFC 6901) such as `/value/service-date-time`, which is empty for the line itself, and `path` the same as a tuple: of each
    member its name, of each item of a list its number from 0.
    """

    def __init__(self, cause: str, pointer: str = "") -> None:
        self.cause = cause
        self.pointer = pointer
        super().__init__(cause, pointer)

    @property
    def cause_number(self) -> int:
        """The number of the cause in C."""
        return BUILD_CAUSES.index(self.cause) + 1

    @property
    def path(self) -> Path:
        """The steps of the pointer."""
        names = [name.replace("~1", "/").replace("~0", "~") for name in self.pointer.split("/")[1:]]
        # No part has a name of digits: such a step is the number of an item, but for a last one that no part has.
        last = len(names) - 1 if self.cause == "UnknownMember" else len(names)
        return tuple(int(name) if name.isdigit() and i != last else name for i, name in enumerate(names))

    def __str__(self) -> str:
        place = f" at {self.pointer}" if self.pointer else ""
        return f"not built{place}: {self.cause}"


def _bytes(octets: Octets) -> bytes:
    """The octets as bytes, which end in C where they end here; a number or a text is a TypeError."""
    return octets if type(octets) is bytes else bytes(memoryview(octets))


def _address(octets: bytes) -> int:
    """Where the octets are in memory, as long as there is a name for them."""
    return ctypes.cast(ctypes.c_char_p(octets), ctypes.c_void_p).value or 0


def _number_of(profile: Profile) -> int:
    """The number of the profile of this name; another name is a ValueError."""
    if profile not in PROFILES:
        raise ValueError(f"profile {profile!r} is neither '2' nor 'module'")
    return PROFILES[profile]


def _refused(refusal: Refusal, message: int = 1, start: int = 0) -> Refused:
    if not 1 <= refusal.cause <= len(CAUSES):
        raise SystemError(f"libillcanon reported the cause {refusal.cause}, which has no name")
    return Refused(refusal.at, CAUSES[refusal.cause - 1], refusal.part.decode("ascii") or None, message, start=start)


def _raise(status: int, refusal: Refusal, message: int = 1, start: int = 0) -> NoReturn:
    """Raises what a status says that gives no result."""
    if status == Status.REFUSED:
        raise _refused(refusal, message, start)
    if status == Status.OUT_OF_MEMORY:
        raise MemoryError
    raise _broken(status)


def _broken(status: int) -> SystemError:
    """The error of a library whose call ends with a status that its header doesn't name of it, or doesn't write what that says."""
    return SystemError(f"libillcanon ended a call with the status {status}, and not as its header says")


def _written(call: Callable[..., int], room: int) -> bytes:
    """What a call writes: it is called once more where the room was too small."""
    refusal = Refusal()
    status, octets = _put(call, room, refusal)
    if status != Status.DONE:
        _raise(status, refusal)
    return octets


def _put(call: Callable[..., int], room: int, refusal: Union[Refusal, ctypes.c_uint32]) -> Tuple[int, bytes]:
    """How a call ends that has the room which it needs, and what it wrote. The refusal is what it reports of one."""
    size = ctypes.c_size_t()
    while True:
        buffer = ctypes.create_string_buffer(max(room, 1))
        status = call(buffer, room, ctypes.byref(size), ctypes.byref(refusal))
        if size.value <= room:
            return status, ctypes.string_at(buffer, size.value)
        if status != Status.NO_ROOM:
            raise _broken(status)
        room = size.value


def _room(octets: bytes, times: int) -> int:
    """The room for what is made of octets: this many times theirs, and none where they are more than a message has."""
    return times * len(octets) + 256 if len(octets) <= LIMIT else 0


def normalise(octets: Octets, *, profile: Profile = "2") -> bytes:
    """The normal form of the message in the profile that the octets are.

    Raises `Refused` where they are not exactly one message.
    """
    profile_number, octets = _number_of(profile), _bytes(octets)
    return _written(lambda *memory: library.illcanon_normalise_as(profile_number, octets, len(octets), *memory), _room(octets, 1))


def check(octets: Octets, *, profile: Profile = "2") -> bool:
    """Says whether the message is in normal form in the profile.

    Raises `Refused` where they are not exactly one message.
    """
    profile_number, octets = _number_of(profile), _bytes(octets)
    refusal, normal = Refusal(), ctypes.c_uint32()
    status: int = library.illcanon_check_as(profile_number, octets, len(octets), ctypes.byref(normal), ctypes.byref(refusal))
    return _answer(status, normal, refusal)


def same(first: Octets, second: Octets, *, profile: Profile = "2") -> bool:
    """Says whether two messages in the profile are the same, however each is spelled.

    Raises `Refused` where one is not exactly one message: the first, or where that is one, the second. `message` is 1 or 2.
    """
    profile_number, first, second = _number_of(profile), _bytes(first), _bytes(second)
    refusal, answer = Refusal(), ctypes.c_uint32()
    memory = ctypes.byref(answer), ctypes.byref(refusal)
    status: int = library.illcanon_same_as(profile_number, first, len(first), second, len(second), *memory)
    if status == Status.SECOND_REFUSED:
        raise _refused(refusal, 2)
    return _answer(status, answer, refusal)


def _answer(status: int, answer: ctypes.c_uint32, refusal: Refusal) -> bool:
    """Whether a call that is done answered 1."""
    if status != Status.DONE:
        _raise(status, refusal)
    if answer.value not in (0, 1):
        raise _broken(status)
    return answer.value == 1


def show(octets: Octets, number: int = 1, *, profile: Profile = "2") -> str:
    """The message in the profile that the octets are as text, a line for each leaf, under a number from 0 to 4,294,967,295.

    Raises `Refused` where they are not exactly one message.
    """
    profile_number, octets = _number_of(profile), _bytes(octets)
    if not 0 <= number < 2**32:
        raise ValueError("number")
    text = _written(lambda *memory: library.illcanon_show_as(profile_number, octets, len(octets), number, *memory), _room(octets, 16))
    return text.decode("ascii")


def parse(octets: Octets, number: int = 1, offset: int = 0, *, profile: Profile = "2") -> Dict[str, Any]:
    """The message in the profile that the octets are as a dict of its parts, as docs/show.schema.json describes it.

    `apdu` is the name of the APDU, `profile` is `module` in that profile and not there in profile 2, `value` is the value, `normal` whether
    the octets are its normal form, `octets` how many they are, and `number` and `offset` what the call is given: from 0 to 4,294,967,295,
    and to 18,446,744,073,709,551,615. Each number is exact. In a string each octet is the character of its number.

    Raises `Refused` where they are not exactly one message.
    """
    profile_number, octets = _number_of(profile), _bytes(octets)
    if not 0 <= number < 2**32:
        raise ValueError("number")
    if not 0 <= offset < 2**64:
        raise ValueError("offset")
    numbers = number, offset
    line = _written(lambda *memory: library.illcanon_json_as(profile_number, octets, len(octets), *numbers, *memory), _room(octets, 16))
    found: Dict[str, Any] = json.loads(line)
    return found


def build(message: Union[Dict[str, Any], str, Octets], *, profile: Profile = "2", defaults: bool = False) -> bytes:
    """The normal form of the message in the profile that a dict or a line of JSON says: what `parse` gives, as text or not.

    `apdu` is the name of the APDU, and `value` its value. `profile` is the name of the profile where it is there. The other members of
    `parse` may be left out, and hold anything. Numbers are written in full.

    With `defaults` each part that has its default is written, too, for systems that refuse messages without them. That is a message of the
    same APDU, but no normal form; `normalise` makes the normal form of it.

    Raises `NotBuilt` where no message is said. What is no JSON in Python, such as octets in a dict, raises what `json.dumps` does.
    """
    profile_number, line = _number_of(profile), _line_of(message)
    cause = ctypes.c_uint32()
    room = min(len(line), LIMIT) + 256
    call = library.illcanon_build_with_defaults if defaults else library.illcanon_build_as
    status, octets = _put(lambda *memory: call(profile_number, line, len(line), *memory), room, cause)
    if status == Status.REFUSED:
        raise _not_built(cause.value, octets)
    if status == Status.OUT_OF_MEMORY:
        raise MemoryError
    if status != Status.DONE:
        raise _broken(status)
    return octets


def _line_of(message: Union[Dict[str, Any], str, Octets]) -> bytes:
    """The line of JSON that a message is, or is written as."""
    if isinstance(message, dict):
        return json.dumps(message, allow_nan=False, separators=(",", ":")).encode("ascii")
    # A character that is half of a pair is no UTF-8, which the call refuses.
    return message.encode("utf-8", "surrogatepass") if isinstance(message, str) else _bytes(message)


def _not_built(cause: int, pointer: bytes) -> NotBuilt:
    if not 1 <= cause <= len(BUILD_CAUSES):
        raise SystemError(f"libillcanon reported the cause {cause} of a line, which has no name")
    return NotBuilt(BUILD_CAUSES[cause - 1], pointer.decode("utf-8"))


def dump(octets: Octets, number: int = 1, *, profile: Profile = "2") -> Tuple[str, Optional[Refused]]:
    """The message in the profile that the octets are as it is spelled, under a number: a line for each element. And None.

    Of octets that are not exactly one message: the elements before the place, the refusal in words, the elements from there on by their
    identifiers and lengths alone, each marked as not judged; and the refusal.
    """
    # Octets after the greatest message aren't listed, and the first of them says as much as all.
    profile_number, octets = _number_of(profile), _bytes(octets)[: LIMIT + 1]
    if not 0 <= number < 2**32:
        raise ValueError("number")
    refusal, room = Refusal(), _room(octets[:LIMIT], 16)
    status, text = _put(lambda *memory: library.illcanon_dump_as(profile_number, octets, len(octets), number, *memory), room, refusal)
    if status not in (Status.DONE, Status.REFUSED):
        _raise(status, refusal)
    return text.decode("ascii"), _refused(refusal) if status == Status.REFUSED else None


def frame(octets: Octets) -> Optional[int]:
    """How many octets the element of BER has that the octets begin with, by its identifiers and lengths alone, whatever they mean.

    None where the octets may be the beginning of an element. Raises `ValueError` where its end can't be known, whatever follows them.
    """
    octets, size = _bytes(octets), ctypes.c_size_t()
    status: int = library.illcanon_frame(octets, len(octets), ctypes.byref(size))
    if status == Status.REFUSED:
        raise ValueError("where the element ends can't be known")
    if status == Status.NEEDS_MORE:
        return None
    if status != Status.DONE:
        raise _broken(status)
    return size.value


def digest(octets: Octets, *, profile: Profile = "2") -> bytes:
    """SHA-256 of the normal form of the message in the profile that the octets are: the same for all spellings.

    Raises `Refused` where they are not exactly one message.
    """
    profile_number, octets = _number_of(profile), _bytes(octets)
    return _written(lambda *memory: library.illcanon_digest_as(profile_number, octets, len(octets), *memory), 32)


def messages(octets: Octets, *, profile: Profile = "2") -> Iterator[bytes]:
    """The messages in the profile that the octets are, one after another, each as it is spelled.

    Raises `Refused` at the first octets that begin with none, after the messages before them. `message` is its number, and `start` the
    number of octets before it. `results` goes on.
    """
    return _messages(_number_of(profile), _bytes(octets))


def _messages(profile: int, octets: bytes) -> Iterator[bytes]:
    size = ctypes.c_size_t()
    at, number = 0, 1
    while at < len(octets):
        status = _call_at(library.illcanon_next_as, profile, octets, at, number, ctypes.byref(size))
        _check_front(status, size.value, len(octets) - at)
        yield octets[at : at + size.value]
        at, number = at + size.value, number + 1


def normal_forms(octets: Octets, *, profile: Profile = "2") -> Iterator[bytes]:
    """The normal forms of the messages in the profile that the octets are, one after another. Each message is read once.

    Raises `Refused` at the first octets that begin with none, after the normal forms of the messages before them. `message` is its
    number, and `start` the number of octets before it.
    """
    return _normal_forms(_number_of(profile), _bytes(octets))


def _normal_forms(profile: int, octets: bytes) -> Iterator[bytes]:
    read, size = ctypes.c_size_t(), ctypes.c_size_t()
    buffer = ctypes.create_string_buffer(max(min(len(octets), LIMIT), 1))
    at, number = 0, 1
    while at < len(octets):
        memory = ctypes.byref(read), buffer, len(buffer), ctypes.byref(size)
        status = _call_at(library.illcanon_normalise_next_as, profile, octets, at, number, *memory)
        if status == Status.NO_ROOM and size.value > len(buffer):
            buffer = ctypes.create_string_buffer(size.value)
            continue
        _check_front(status, read.value, len(octets) - at)
        yield ctypes.string_at(buffer, size.value)
        at, number = at + read.value, number + 1


def _call_at(call: Callable[..., int], profile: int, octets: bytes, at: int, number: int, *memory: object) -> int:
    """Makes a call on the octets from an offset on, where the message of this number begins. Returns DONE or NO_ROOM."""
    refusal = Refusal()
    status = call(profile, _address(octets) + at, len(octets) - at, *memory, ctypes.byref(refusal))
    if status == Status.NEEDS_MORE:
        raise Refused(len(octets) - at, "Truncated", None, number, start=at)
    if status not in (Status.DONE, Status.NO_ROOM):
        _raise(status, refusal, number, at)
    return status


def _check_front(status: int, size: int, count: int) -> None:
    """Checks that a call is done, and that what it found at the front of this many octets is some of them."""
    if status != Status.DONE or not 0 < size <= count:
        raise _broken(status)
