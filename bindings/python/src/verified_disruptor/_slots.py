"""What lies in the slots of a ring: events of any class, or records in one buffer."""

from __future__ import annotations

import struct
from collections.abc import Callable, Iterable
from copy import copy
from typing import Any


class Events:
    """An event of a class in each slot, which the factory makes."""

    def __init__(self, size: int, factory: Callable[[], Any]):
        self.size = size
        self.items = [factory() for _ in range(size)]

    def to_read(self) -> Events:
        """The same for a handler that only reads, which is not checked of events."""
        return self

    def at(self, sequence: int) -> Any:
        """The event of a sequence."""
        return self.items[sequence & (self.size - 1)]

    def each(self, first: int, count: int) -> Iterable[Any]:
        """The events of the sequences from `first` on, one by one."""
        return self.stretch(first, count)

    def stretch(self, first: int, count: int) -> list:
        """The events of the sequences from `first` on, in order."""
        at = first & (self.size - 1)
        events = self.items[at : at + count]
        return events if len(events) == count else events + self.items[: count - len(events)]


# The items of these formats of a buffer are of one kind, where they have one size.
_KINDS = ("bhilqn", "BHILQN", "efd", "?", "c")


def _are_alike(one: str, other: str) -> bool:
    one, other = one.lstrip("@"), other.lstrip("@")
    return one == other or (
        any(one in kind and other in kind for kind in _KINDS) and struct.calcsize(one) == struct.calcsize(other)
    )


class Records:
    """A record of a struct format in each slot: items of one kind, as "Q" or "dd"."""

    def __init__(self, size: int, record: str):
        if len(set(record)) != 1:
            raise ValueError("a record has items of one kind")
        self.size, self.width, self.bytes = size, len(record), struct.calcsize(record)
        self.items = memoryview(bytearray(size * self.bytes)).cast(record[0])

    def to_read(self) -> Records:
        """The same for a handler that only reads: whoever changes one by its views is refused with TypeError."""
        own = copy(self)
        own.items = self.items.toreadonly()
        return own

    def like(self, buffer: Any) -> memoryview:
        """The items of a buffer, which has whole records: as bytes, or with items of the same kind."""
        new, own = memoryview(buffer), self.items.format
        if new.format not in ("B", "b", "c") and not _are_alike(new.format, own):
            raise TypeError(f"the items of the records are {own}, and those of the buffer {new.format}")
        if new.nbytes % self.bytes:
            raise ValueError(f"not a whole number of records of {self.bytes} bytes")
        return new.cast("B").cast(own)

    def at(self, sequence: int) -> memoryview:
        """The items of the record of a sequence."""
        at = (sequence & (self.size - 1)) * self.width
        return self.items[at : at + self.width]

    def each(self, first: int, count: int) -> Iterable[memoryview]:
        """The items of each record from `first` on."""
        return map(self.at, range(first, first + count))

    def stretch(self, first: int, count: int) -> tuple[memoryview, ...]:
        """The items of the records from `first` on: one view, or two where they go round the end of the slots."""
        at = first & (self.size - 1)
        front = min(count, self.size - at)
        views = (self.items[at * self.width : (at + front) * self.width],)
        return views if front == count else (*views, self.items[: (count - front) * self.width])
