"""The shared object, and the types of its calls (bindings/c/illcanon.h)."""
from __future__ import annotations

import ctypes
import os
from typing import Callable, Optional, Tuple

# The version of the package, which is that of the library.
VERSION = "0.2.0"

# The greatest number of octets of a name or of a version.
ROOM = 128


class Refusal(ctypes.Structure):
    """struct illcanon_refusal"""

    _fields_ = [("at", ctypes.c_uint32), ("cause", ctypes.c_uint32), ("part", ctypes.c_char * 64)]


def _load() -> ctypes.CDLL:
    beside = os.path.join(os.path.dirname(os.path.abspath(__file__)), "libillcanon.so")
    name = os.environ.get("ILLCANON_LIBRARY") or beside
    found = ctypes.CDLL(name)
    _check_version(found, name)
    octets = [ctypes.c_uint32, ctypes.c_void_p, ctypes.c_size_t]
    text = [ctypes.c_void_p, ctypes.c_size_t, ctypes.POINTER(ctypes.c_size_t)]
    written = [*text, ctypes.POINTER(Refusal)]
    answer = [ctypes.POINTER(ctypes.c_uint32), ctypes.POINTER(Refusal)]
    types = {
        "illcanon_normalise_as": [*octets, *written],
        "illcanon_show_as": [*octets, ctypes.c_uint32, *written],
        "illcanon_json_as": [*octets, ctypes.c_uint32, ctypes.c_uint64, *written],
        "illcanon_build_as": [*octets, *text, ctypes.POINTER(ctypes.c_uint32)],
        "illcanon_build_with_defaults": [*octets, *text, ctypes.POINTER(ctypes.c_uint32)],
        "illcanon_dump_as": [*octets, ctypes.c_uint32, *written],
        "illcanon_digest_as": [*octets, *written],
        "illcanon_check_as": [*octets, *answer],
        "illcanon_same_as": [*octets, ctypes.c_void_p, ctypes.c_size_t, *answer],
        "illcanon_next_as": [*octets, ctypes.POINTER(ctypes.c_size_t), ctypes.POINTER(Refusal)],
        "illcanon_normalise_next_as": [*octets, ctypes.POINTER(ctypes.c_size_t), *written],
        "illcanon_frame": [ctypes.c_void_p, ctypes.c_size_t, ctypes.POINTER(ctypes.c_size_t)],
        "illcanon_cause_name": [ctypes.c_uint32, *text],
        "illcanon_cause_clause": [ctypes.c_uint32, *text],
        "illcanon_build_cause_name": [ctypes.c_uint32, *text],
    }
    for call_name, arguments in types.items():
        call = getattr(found, call_name)
        call.argtypes, call.restype = arguments, ctypes.c_uint32
    return found


def _check_version(found: ctypes.CDLL, name: str) -> None:
    """Raises ImportError where the library is of another version than the package."""
    call = getattr(found, "illcanon_version", None)
    if call is None:
        raise ImportError(f"{name} has no illcanon_version: it is not libillcanon {VERSION}, which this package needs")
    call.argtypes, call.restype = [ctypes.c_void_p, ctypes.c_size_t, ctypes.POINTER(ctypes.c_size_t)], ctypes.c_uint32
    buffer, size = ctypes.create_string_buffer(ROOM), ctypes.c_size_t()
    status = call(buffer, ROOM, ctypes.byref(size))
    version = buffer.raw[: size.value].decode("ascii", "replace") if status == 0 else "of an unknown version"
    if version != VERSION:
        raise ImportError(f"{name} is libillcanon {version}, and this package needs {VERSION}")


def _causes(call: Callable[..., int]) -> Tuple[str, ...]:
    """What a call says of each cause, by their numbers from 1, up to the first number that is no cause's."""
    texts = []
    for number in range(1, 256):
        text = _cause_text(call, number)
        if text is None:
            break
        texts.append(text)
    return tuple(texts)


def _cause_text(call: Callable[..., int], number: int) -> Optional[str]:
    buffer, size = ctypes.create_string_buffer(ROOM), ctypes.c_size_t()
    status = call(number, buffer, ROOM, ctypes.byref(size))
    return buffer.raw[: size.value].decode("ascii") if status == 0 else None


library = _load()
CAUSES = _causes(library.illcanon_cause_name)
CLAUSES = _causes(library.illcanon_cause_clause)
BUILD_CAUSES = _causes(library.illcanon_build_cause_name)
