"""The ends of a ring of slots."""

from __future__ import annotations

import ctypes
import threading
import time
from collections.abc import Callable, Sequence
from typing import Any

from ._library import BATCH, DRAINED, LIBRARY, MAX_LIMIT, Counts, Handle, Offer, Reason, Refusal, check, number_or
from ._slots import Events, Records
from ._waiting import Bell, Waiting

_WAITED_OUT = (Reason.NO_ROOM, Reason.CONTENDED)
# More senders than this are refused, however many.
_MOST_SENDERS = 16
# The bit of who gives up the whole ring, among those of its handlers.
_WHOLE = 1 << 63
_NO_SEQUENCE = (1 << 64) - 1


class Broken(Exception):
    """A handler went away before it had every event: the ring is halted, and those who follow it wait no longer once they had what
    it completed."""

    def __init__(self, ends: Ends):
        super().__init__("a handler went away before it had every event")
        self.ends = ends


class Ends:
    """The ends of a ring, for threads of your own: `upstreams[k]` is a mask of those that handler k follows. One of several
    senders ends with a halt. Once it is open, `make(size)` makes what lies in its slots."""

    def __init__(
        self,
        size: int,
        make: Callable[[int], Events | Records],
        upstreams: Sequence[int],
        senders: int | None = None,
        limit: int = MAX_LIMIT,
    ):
        self._handles = (Handle * 0)()
        if senders is not None:
            senders = min(max(senders, 0), _MOST_SENDERS + 1)
        size, limit = number_or(0, size), number_or(0, limit)
        upstreams = [number_or(_NO_SEQUENCE, mask) for mask in upstreams]
        count, first = len(upstreams), senders or 1
        # (the handlers that went away before they had every event, as bits)
        self.bell, self._gone, self._lock = Bell(), 0, threading.Lock()
        self._handles = (Handle * (first + count + 1))()
        at = [ctypes.addressof(handle) for handle in self._handles]
        masks = (ctypes.c_uint64 * max(count, 1))(*upstreams)
        graph = (ctypes.addressof(masks), count, count)
        # (where there is no handler, the place of its handle is one of nothing)
        receiving, halter = (at[first], count, count), (at[first + count], 1)
        if senders is None:
            check(LIBRARY.disruptor_open_bytes_at(size, limit, 0, *graph, at[0], 1, *receiving, *halter))
        else:
            check(LIBRARY.disruptor_open_several_at(size, limit, *graph, at[0], senders, senders, *receiving, *halter))
        self.slots = make(size)
        self._halter = at[first + count]
        self.senders = [Sender(self, place) for place in at[:first]]
        self.receivers = [Receiver(self, place, k, mask) for k, (place, mask) in enumerate(zip(at[first:-1], upstreams))]

    # (the names of a module may be gone when a program ends)
    def __del__(self, free: Any = LIBRARY.disruptor_free_at, address: Any = ctypes.addressof) -> None:
        free(address(self._handles), len(self._handles))

    def cursor(self) -> int:
        """How many events the one sender published, or how many several claimed. Any thread may ask that at any time."""
        count = ctypes.c_uint64()
        check(LIBRARY.disruptor_cursor_at(self._halter, 1, ctypes.addressof(count), 1))
        return count.value

    def completed(self, handler: int) -> int:
        """How many events handler k completed. Any thread may ask that at any time. The ring has as many free slots as its size plus
        the least count of the final handlers, less the cursor: ask that first."""
        count, handler = ctypes.c_uint64(), number_or(_NO_SEQUENCE, handler)
        check(LIBRARY.disruptor_completed_at(self._halter, 1, handler, ctypes.addressof(count), 1))
        return count.value

    def halt(self) -> None:
        """Nobody claims from now on."""
        check(LIBRARY.disruptor_halt_at(self._halter, 1))
        self.bell.ring()

    def give_up(self, ends: int = _WHOLE) -> None:
        """Halts the ring for good, so that nobody waits any more: each handler ends once it finds no event."""
        with self._lock:
            self._gone |= ends
        self.halt()

    def cut(self, upstreams: int) -> int:
        """Where those who follow these are cut: at the least count of those of them that are gone."""
        gone = self._gone & upstreams
        if not gone:
            return _NO_SEQUENCE
        return 0 if gone & _WHOLE else min(it.completed for k, it in enumerate(self.receivers) if gone >> k & 1)


class _End:
    def __init__(self, ends: Ends, handle: int):
        # (the ends keep one another alive until all are let go)
        self._ends, self._handle = ends, handle

    def halt(self) -> None:
        """Halts the ring: nobody claims from now on. Any thread may do that by any end."""
        self._ends.halt()

    def progress(self) -> tuple[int, int]:
        """What a sender of one claimed and published, or what a receiver took and completed."""
        counts = Counts()
        check(LIBRARY.disruptor_progress_at(self._handle, 1, ctypes.addressof(counts), 1))
        return counts.begun, counts.done


class _Claim:
    """Events that its `with` claims, once there is room, and publishes at its end, filled or not: the next one, or a batch."""

    # (so that whoever fills it, and not what its `with` gives, is told)
    __slots__ = ("_sender", "_n", "_is_batch", "_timeout")

    def __init__(self, sender: Sender, n: int, is_batch: bool, timeout: float | None):
        self._sender, self._n, self._is_batch, self._timeout = sender, n, is_batch, timeout

    def __enter__(self) -> Any:
        slots = self._sender._slots_to_claim()
        try:
            lo = self._sender._claim(self._n, self._timeout)
            return slots.stretch(lo, self._n) if self._is_batch else slots.at(lo)
        except BaseException:
            # (an interrupt may come between the claim and the `with`)
            self._sender.publish_claim()
            raise

    def __exit__(self, *raised: object) -> None:
        self._sender.publish_claim()


class Sender(_End):
    """An end that fills events and publishes them, for one thread. It has one claim at a time: another one is refused, OPEN_CLAIM."""

    def __init__(self, ends: Ends, handle: int):
        super().__init__(ends, handle)
        # (the claim that is not published, where there is one: the library writes its first sequence there)
        self._lo, self._n, self._claimer = ctypes.c_uint64(_NO_SEQUENCE), 0, 0
        self._lo_at, self._waiting = ctypes.addressof(self._lo), Waiting(ends.bell)
        # (how many events it published, which any thread may read, and how many before its last claim)
        self.published = self._published_before = 0

    def _slots_to_claim(self) -> Events | Records:
        """The slots, where no claim is open."""
        if self._lo.value != _NO_SEQUENCE:
            raise Refusal(Reason.OPEN_CLAIM)
        return self._ends.slots

    def _claim(self, n: int, timeout: float | None) -> int:
        """The first of n sequences, once there is room."""
        deadline = None if timeout is None else time.monotonic() + timeout
        self._n = n = number_or(0, n)
        self._claimer, self._published_before = threading.get_ident(), self.published
        while True:
            number = LIBRARY.disruptor_claim_at(self._handle, 1, n, self._lo_at, 1)
            if not number:
                self._waiting.found()
                return self._lo.value
            if number not in _WAITED_OUT or (deadline is not None and time.monotonic() >= deadline):
                self._waiting.found()
                if number == Reason.HALTED:
                    # (it never claims again, so a ring of one sender may as well be closed: nobody waits for one that is forgotten)
                    LIBRARY.disruptor_close_at(self._handle, 1)
                    self._ends.bell.ring()
                raise Refusal(number)
            self._waiting.wait()

    def publish_claim(self) -> None:
        """Publishes the claim that is open, where there is one: at the end of its `with`, or where an interrupt kept that from it."""
        lo = self._lo.value
        if lo != _NO_SEQUENCE:
            number = LIBRARY.disruptor_publish_slots_at(self._handle, 1, lo, lo + self._n - 1)
            # (an interrupt may come after the publication too, so each step may be made again)
            if number and number != Reason.ALREADY_PUBLISHED:
                raise Refusal(number)
            self.published = self._published_before + self._n
            self._lo.value = _NO_SEQUENCE
            self._ends.bell.ring()

    def _publish_own_claim(self) -> None:
        """The same for a claim of the thread that asks; that of another thread is published at the end of its own `with`."""
        if self._claimer == threading.get_ident():
            self.publish_claim()

    def event(self, timeout: float | None = None) -> _Claim:
        """The next event, once there is room, for a `with` that fills it: `with sender.event() as order: order.price = 3`. A record
        is a flat view of its items.

        Where there is none after `timeout` seconds, that raises a Refusal, NO_ROOM or CONTENDED; it may take ten milliseconds more."""
        return _Claim(self, 1, False, timeout)

    def events(self, n: int, timeout: float | None = None) -> _Claim:
        """The next `n` events, once there is room for all, for a `with` that fills each: a list.

        Of records it is one view of all their items, flat, or two where they go round the end of the slots; fill each item of each."""
        return _Claim(self, n, True, timeout)

    def send(self, records: Any, timeout: float | None = None) -> None:
        """Copies records into their slots and publishes them, once there is room: what has a buffer, as an array of numpy.

        Its items are bytes, or of the records' kind; else that raises TypeError."""
        slots = self._ends.slots
        new = slots.like(records)
        with self.events(new.nbytes // slots.bytes, timeout) as views:
            done = 0
            for view in views:
                view[:] = new[done : done + len(view)]
                done += len(view)

    def close(self) -> None:
        """Closes the ring of one sender: no event comes any more. A sender that is refused with HALTED has done so."""
        check(LIBRARY.disruptor_close_at(self._handle, 1))
        self._ends.bell.ring()


class Receiver(_End):
    """The end of a handler, for one thread, which is shown every event after those that it follows had it.

    Where the handler raises, the events before the one at which it did are completed. If it is run again, that one counts as
    handled, and it goes on after it. A handler that receives by its own end meanwhile is refused with RuntimeError.

    Until then all others wait for it. Run it in `with receiver:`, which gives it up where it ends before it is drained.
    """

    def __init__(self, ends: Ends, handle: int, place: int, upstreams: int):
        super().__init__(ends, handle)
        self._own, self._upstreams = 1 << place, upstreams | _WHOLE
        self._offer, self._waiting, self._slots = Offer(), Waiting(ends.bell), ends.slots
        self._offer_at = ctypes.addressof(self._offer)
        # (how many events it completed, which any thread may read)
        self.completed = self._shown = self._taken = 0
        self.is_drained = self._is_showing = False

    def only_reads(self) -> None:
        """Shows records from now on by views that refuse to change them."""
        self._slots = self._ends.slots.to_read()

    def _complete(self, upto: int) -> None:
        if upto != self.completed:
            check(LIBRARY.disruptor_complete_at(self._handle, 1, upto))
            self.completed = upto
            self._ends.bell.ring()

    def _take(self, room: int | None, deadline: float | None = None) -> int:
        """How many events to show next, `room` at most, once there are any, or 0 where none come any more, or none came in time."""
        if self._is_showing:
            raise RuntimeError("a handler receives by its own end")
        size = self._slots.size
        room = size if room is None else min(number_or(0, room), size)
        if not room:
            raise Refusal(Reason.BAD_COUNT)
        self._complete(self._shown)
        # (some are in hand still where a handler raised, or where an interrupt came right after a poll)
        if self._shown == self._upto() and not self._poll(room, deadline):
            return 0
        return min(room, self._upto() - self._shown)

    def _upto(self) -> int:
        """Up to where events are taken: where the last poll took some, the library left in the offer which."""
        if self._offer.kind == BATCH:
            self._taken = self._offer.first + self._offer.count
        return self._taken

    def _poll(self, room: int, deadline: float | None) -> bool:
        """Has the next events in hand, once there are any, or answers False where none come any more, or none came in time."""
        while True:
            # (it asks for its cut before it looks, so that it misses no event)
            cut = self._ends.cut(self._upstreams)
            check(LIBRARY.disruptor_poll_slots_at(self._handle, 1, room, self._offer_at, 1))
            if self._offer.kind == BATCH:
                self._waiting.found()
                return True
            self.is_drained = self._offer.kind == DRAINED
            if self.is_drained or (deadline is not None and time.monotonic() >= deadline):
                self._waiting.found()
                return False
            if self.completed >= cut:
                raise Broken(self._ends)
            self._waiting.wait()

    def give_up(self) -> None:
        """Halts the ring for this handler, which goes away before it had every event, so that nobody waits for it."""
        self._ends.give_up(self._own)

    def __enter__(self) -> Receiver:
        return self

    def __exit__(self, *raised: object) -> None:
        if not self.is_drained:
            self.give_up()

    def _show(self, handle: Callable[[Any, int, bool], object], count: int) -> int:
        done = self._shown
        last = done + count - 1
        try:
            self._is_showing = True
            for event in self._slots.each(done, count):
                # (from here on it counts as handled; an interrupt between two events takes none away)
                self._shown = done + 1
                handle(event, done, done == last)
                done += 1
        except BaseException:
            self._complete(done)
            raise
        finally:
            self._is_showing = False
        self._complete(done)
        return count

    def run(self, handle: Callable[[Any, int, bool], object], room: int | None = None) -> None:
        """Shows `handle(event, sequence, is_last_of_batch)` every event until the ring is drained, `room` at most in a batch."""
        while count := self._take(room):
            self._show(handle, count)

    def receive(self, handle: Callable[[Any, int, bool], object], timeout: float, room: int | None = None) -> int:
        """Shows the next events, `room` at most, once there are any, and completes them. It answers how many: none where none came
        within `timeout` seconds, and ten milliseconds more at most, or where the ring is drained (`is_drained`)."""
        return self._show(handle, self._take(room, time.monotonic() + timeout))

    def run_batches(self, handle: Callable[[Any, int], object], room: int | None = None) -> None:
        """Shows `handle(events, first_sequence)` every batch until the ring is drained: a list, or views of records.

        Where it raises, nothing of the batch is completed. If it is run again, a batch that it was called with counts as handled."""
        while count := self._take(room):
            first = self._shown
            events = self._slots.stretch(first, count)
            try:
                self._is_showing = True
                # (from here on it counts as handled)
                self._shown = first + count
                handle(events, first)
            finally:
                self._is_showing = False
            self._complete(self._shown)
