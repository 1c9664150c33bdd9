"""What the native library answers: the texts of messages and their lines of JSON, which no test vector has. The line is the second one of answers.js."""
import ctypes
import zlib
from ctypes import byref, c_char, c_size_t, c_uint32, c_uint64

from vectors import octets_of

PROFILES = {"2": 2, "module": 3}
CAUSES = (
    " Truncated BadTag BadLength TooLong Overrun TooDeep UnexpectedTag LeftOut WrongForm Missing BadEnd BadBoolean BadInteger "
    "IntegerTooLong BadText BadDate BadTime TrailingBytes NormalTooLong BadNull BadOid BadBits"
).split(" ")
DONE, REFUSED, NO_ROOM = 0, 1, 4
# The octets of which illcanon.js lists no more than one more.
LIMIT = 1048576
MOST_SHOWN = 2000000


class Refusal(ctypes.Structure):
    _fields_ = [("at", c_uint32), ("cause", c_uint32), ("part", c_char * 64)]

    def __str__(self):
        return f"{CAUSES[self.cause]}@{self.at}{' ' + self.part.decode() if self.part else ''}"


class Native:
    def __init__(self, path):
        self.library = ctypes.CDLL(str(path))

    def written(self, call, profile, octets, *words):
        """The refusal, or None, and the text that a call writes, which is given the number 7 and more words."""
        room, size, refusal = 65536, c_size_t(), Refusal()
        while True:
            buffer = ctypes.create_string_buffer(room)
            status = getattr(self.library, f"illcanon_{call}_as")(
                c_uint32(PROFILES[profile]), octets, c_size_t(len(octets)), c_uint32(7), *words, buffer, c_size_t(room), byref(size), byref(refusal))
            if status != NO_ROOM:
                break
            room = size.value
        assert status in (DONE, REFUSED), status
        return refusal if status == REFUSED else None, buffer.raw[: size.value]

    def texts(self, test):
        octets = b"" if test["isStream"] or test["isLine"] else octets_of(test["vector"])
        if test["isStream"] or test["isLine"] or len(octets) > MOST_SHOWN:
            return ""
        refusal, text = self.written("dump", test["profile"], octets[: LIMIT + 1])
        said = f"dump {refusal or 'done'} {len(text)}:{zlib.crc32(text):08x}"
        for call, *words in [("show",), ("json", c_uint64(9))]:
            refusal, text = self.written(call, test["profile"], octets, *words)
            said += f"; {call} {refusal or f'{len(text)}:{zlib.crc32(text):08x}'}"
        return said
