"""The calls of the proved library, by ctypes. Each pointer comes with how many things lie there."""

from __future__ import annotations

import ctypes
import enum
import os
from operator import index

MAX_LIMIT = 1 << 62
BATCH, GATING, IDLE, DRAINED = range(4)


class Reason(enum.IntEnum):
    """Why a call was refused: its number, which stays the same in every release, and its `text`."""

    text: str

    def __new__(cls, number: int, text: str) -> Reason:
        it = int.__new__(cls, number)
        it._value_, it.text = number, text
        return it

    NO_ROOM = 1, "a final handler has not completed the events in the slots: wait, and claim again"
    HALTED = 2, "the ring is halted, for good: publish what is claimed, and end"
    BAD_COUNT = 3, "none, or more than there can be; or not a receiver for each handler"
    EXHAUSTED = 4, "the claim goes past the limit of sequences"
    NOT_CLAIMED = 5, "nobody claimed the sequence, or another sender did"
    ALREADY_PUBLISHED = 6, "the sequence is published, and its event may be read by then"
    NOT_WRITTEN = 7, "a sequence of the stretch has no event yet"
    OUT_OF_ORDER = 8, "an earlier sequence is not published"
    NOT_TAKEN = 9, "the handler has not taken so many events"
    BEHIND = 10, "the handler has completed more already"
    NO_HANDLER = 12, "the ring has no handler of that number"
    CONTENDED = 16, "another sender claimed meanwhile: claim again"
    TOO_MANY = 25, "there would be more than 16 handlers"
    NO_HANDLERS = 26, "there would be no handler"
    BAD_SIZE = 31, "the size is no power of two from 1 to 65536"
    BAD_PRODUCERS = 32, "there would be no senders, or more than 16"
    BAD_LIMIT = 33, "the limit of sequences is 0 or above 2^62"
    NO_MEMORY = 40, "an allocation failed"
    OPEN_CLAIM = 41, "a claimed sequence is not published"
    NOT_OPEN = 61, "the handle is zero, or was freed"
    WRONG_END = 62, "the handle has an end of another kind"
    STILL_OPEN = 63, "a handle that would be opened is open: free it first"
    BAD_ORDER = 64, "a handler's mask names itself, or one after it"
    BAD_POINTER = 65, "a pointer is null or not aligned, or an array is longer than memory"
    BAD_LENGTH = 66, "there are not as many bytes as an event of the ring has"
    NOT_IN_HAND = 67, "the handler has not taken the event, or has completed it"

    def __str__(self) -> str:
        return self.name.lower().replace("_", "-")

    def __format__(self, spec: str) -> str:
        return format(str(self), spec)


class Refusal(Exception):
    """A call was refused, and changed nothing; but a claim that is refused with HALTED closes a ring of one sender."""

    def __init__(self, number: int):
        self.reason = Reason(number)
        super().__init__(f"{self.reason}: {self.reason.text}")


class Offer(ctypes.Structure):
    _fields_ = [("kind", ctypes.c_uint32), ("end", ctypes.c_uint32), ("first", ctypes.c_uint64), ("count", ctypes.c_uint64)]


class Counts(ctypes.Structure):
    _fields_ = [("begun", ctypes.c_uint64), ("done", ctypes.c_uint64)]


class Handle(ctypes.Structure):
    _fields_ = [("at", ctypes.c_void_p), ("state", ctypes.c_uint64), ("rest", ctypes.c_uint64 * 14)]


_p, _n, _s = ctypes.c_void_p, ctypes.c_uint64, ctypes.c_size_t
_CALLS = {
    "open_bytes": (_n, _n, _s, _p, _s, _s, _p, _s, _p, _s, _s, _p, _s),
    "open_several": (_n, _n, _p, _s, _s, _p, _s, _s, _p, _s, _s, _p, _s),
    "claim": (_p, _s, _n, _p, _s),
    "publish_slots": (_p, _s, _n, _n),
    "close": (_p, _s),
    "poll_slots": (_p, _s, _n, _p, _s),
    "complete": (_p, _s, _n),
    "halt": (_p, _s),
    "cursor": (_p, _s, _p, _s),
    "completed": (_p, _s, _s, _p, _s),
    "progress": (_p, _s, _p, _s),
}


def _path() -> str:
    """The library in the folder DISRUPTOR_LIB, that of the package, or the one that the system finds."""
    folder = os.environ.get("DISRUPTOR_LIB")
    if folder:
        return os.path.join(folder, "libdisruptor.so")
    own = os.path.join(os.path.dirname(__file__), "libdisruptor.so")
    return own if os.path.isfile(own) else "libdisruptor.so"


def _load() -> ctypes.PyDLL:
    # (no call waits, so each keeps the interpreter's lock: to let it go would cost more than the call)
    library = ctypes.PyDLL(_path())
    for name, types in _CALLS.items():
        call = getattr(library, f"disruptor_{name}_at")
        call.argtypes, call.restype = types, ctypes.c_uint32
    library.disruptor_free_at.argtypes, library.disruptor_free_at.restype = [_p, _s], None
    return library


LIBRARY = _load()
# (ctypes would cut longer numbers short)
_LONGEST = (1 << 64) - 1


def number_or(refused: int, number: int) -> int:
    """A number that the library may be asked, or else one that it refuses. What is no int raises TypeError."""
    number = index(number)
    return number if 0 <= number <= _LONGEST else refused


def check(number: int) -> None:
    if number:
        raise Refusal(number)
