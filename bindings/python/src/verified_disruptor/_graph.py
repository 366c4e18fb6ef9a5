"""A graph of handlers by their names, each on a thread of its own."""

from __future__ import annotations

import atexit
import threading
from collections.abc import Callable, Iterator, Sequence
from contextlib import contextmanager
from functools import partial
from operator import index
from typing import Any

from ._ends import Broken, Ends, Receiver, Sender
from ._library import MAX_LIMIT, Reason, Refusal
from ._slots import Events, Records


_SIZES = {1 << k for k in range(17)}


class HandlerFailed(Exception):
    """A handler raised, and so the ring was halted: `name` says which one, and `__cause__` is what it raised. Where more did,
    `others` has such an exception for each."""

    def __init__(self, name: str, others: Sequence[HandlerFailed] = ()):
        super().__init__(f"the handler {name} raised" + "".join(f", then {it.name}: {it.__cause__!r}" for it in others))
        self.name, self.others = name, tuple(others)


def _failure(failed: Sequence[tuple[str, BaseException]]) -> HandlerFailed:
    """What says which handlers raised, the first one first, and what."""
    (name, cause), *rest = failed
    failure = HandlerFailed(name, [_failure([it]) for it in rest])
    failure.__cause__ = cause
    return failure


def _hang(failure: HandlerFailed, error: BaseException) -> None:
    """Hangs a failure on what is raised in its place, or on what that came of."""
    came = [error]
    while (before := came[-1].__cause__ or came[-1].__context__) is not None and before not in came:
        came.append(before)
    # (a body may raise what the handler did)
    if failure.__cause__ not in came:
        came[-1].__context__ = failure


class _Work:
    """The work of a thread. Who waits for it may be interrupted, and wait once more: an interrupted `join` takes the thread for ended
    until Python 3.13."""

    def __init__(self) -> None:
        self._is_over, self._lock = False, threading.Lock()
        self._lock.acquire()

    def end(self) -> None:
        self._is_over = True
        self._lock.release()

    def wait(self) -> None:
        # (whoever has the lock, it is over then)
        if not self._is_over:
            self._lock.acquire()


class Disruptor:
    """A ring of `size` slots, a power of two up to 65,536, for events that `factory` makes, and its graph of handlers.

    Handlers are added in order, and each follows those that the last `after` named, or none."""

    def __init__(self, size: int, factory: Callable[[], Any] | None = None, *, record: str | None = None, limit: int = MAX_LIMIT):
        if (factory is None) == (record is None):
            raise TypeError("a ring has a factory of its events, or a record")
        if index(size) not in _SIZES:
            raise Refusal(Reason.BAD_SIZE)
        if record is not None:
            # (where it is no format, that is said here)
            Records(1, record)
        self._size = size
        self._make: Callable[[int], Events | Records] = (
            (lambda size: Events(size, factory)) if factory else (lambda size: Records(size, record or ""))
        )
        self._limit = limit
        self._after: list[int] = []
        self._names: list[str] = []
        self._runs: list[Callable[[Receiver], None]] = []
        self._changes: list[bool] = []
        self._upstreams: list[list[int]] = []
        # (those of the ring that was opened last)
        self._ends: Ends | None = None
        self._threads: list[threading.Thread] = []

    def _add(self, name: str, changes: bool, run: Callable[[Receiver], None]) -> Disruptor:
        if self._ends:
            raise RuntimeError("it has started")
        if name in self._names:
            raise ValueError(f"two handlers have the name {name}")
        self._names.append(name)
        self._changes.append(changes)
        self._runs.append(run)
        self._upstreams.append(self._after)
        return self

    def handle(self, name: str, handler: Callable[[Any, int, bool], object], *, changes: bool = False) -> Disruptor:
        """Adds a handler, which is shown each event, its sequence, and whether it is the last that is there for now.

        One that `changes` events must have them alone: each other handler comes before it or after it. A record is shown as a flat
        view of its items, which only one that changes them may write."""
        return self._add(name, changes, lambda receiver: receiver.run(handler))

    def handle_batches(self, name: str, handler: Callable[[Any, int], object], *, changes: bool = False) -> Disruptor:
        """Adds a handler of whole batches: a list of events, and the sequence of the first.

        Of records it is a tuple of one view of all their items, flat, or of two where they go round the end of the slots."""
        return self._add(name, changes, lambda receiver: receiver.run_batches(handler))

    def after(self, *names: str) -> Disruptor:
        """The handlers that come next follow these."""
        self._after = [self._place(name) for name in names]
        return self

    def _place(self, name: str) -> int:
        if name not in self._names:
            raise ValueError(f"no handler before has the name {name}")
        return self._names.index(name)

    def and_then(self) -> Disruptor:
        """The handlers that come next follow all that there are."""
        return self.after(*self._names)

    def cursor(self) -> int:
        """How many events are published, or how many several senders claimed, in the ring that was opened last. Any thread may ask
        that."""
        return self._ends.cursor() if self._ends else 0

    def completed(self, name: str) -> int:
        """How many events the handler with this name completed, in the ring that was opened last. Any thread may ask that."""
        place = self._place(name)
        return self._ends.receivers[place].completed if self._ends else 0

    def _check_changes(self) -> None:
        before: list[set[int]] = []
        for ups in self._upstreams:
            before.append(set(ups).union(*(before[up] for up in ups)))
        for k, name in enumerate(self._names):
            if self._changes[k] and any(k != it and it not in before[k] and k not in before[it] for it in range(len(before))):
                raise ValueError(f"{name} would change events that another handler reads at the same time")

    @staticmethod
    def _stop(ends: Ends, senders: int | None, threads: list[threading.Thread]) -> None:
        """Closes or halts the ring, which may be done again. Where a thread could not be started, nobody waits for its handler."""
        if any(thread.ident is None for thread in threads):
            ends.give_up()
        elif senders is None:
            ends.senders[0].publish_claim()
            ends.senders[0].close()
        else:
            for sender in ends.senders:
                sender._publish_own_claim()
            ends.halt()

    @classmethod
    def _end(cls, ends: Ends, senders: int | None, threads: list[threading.Thread], works: list[_Work]) -> None:
        """Closes or halts the ring, and waits until each handler had every event."""
        try:
            cls._stop(ends, senders, threads)
        except BaseException:
            # (an interrupt came once more, after one that ended the `with`)
            cls._stop(ends, senders, threads)
            raise
        finally:
            for thread, work in zip(threads, works):
                if thread.ident is not None:
                    thread.join()
                    work.wait()

    def _open(self, senders: int | None) -> Ends:
        self._check_changes()
        masks = [sum(1 << up for up in set(ups)) for ups in self._upstreams]
        ends = Ends(self._size, self._make, masks, senders, self._limit)
        for receiver, changes in zip(ends.receivers, self._changes):
            if not changes:
                receiver.only_reads()
        return ends

    @contextmanager
    def _running(self, senders: int | None) -> Iterator[Ends]:
        if any(thread.is_alive() for thread in self._threads):
            raise RuntimeError("its ring still runs: one of several senders is opened by senders(count)")
        ends = self._ends = self._open(senders)
        failed: list[tuple[str, BaseException]] = []

        def work(name: str, run: Callable[[Receiver], None], receiver: Receiver, own: _Work) -> None:
            try:
                run(receiver)
            except BaseException as error:
                # (where one that it follows is gone, that one is named)
                if not (isinstance(error, Broken) and error.ends is ends):
                    failed.append((name, error))
                receiver.give_up()
            finally:
                own.end()

        works = [_Work() for _ in self._names]
        each = zip(self._names, self._runs, ends.receivers, works)
        threads = self._threads = [threading.Thread(target=work, args=it, name=it[0], daemon=True) for it in each]
        # (an interrupt where the `with` ends may keep this from going on after its `yield`; then the ring ends with the program)
        end = partial(self._end, ends, senders, threads, works)
        atexit.register(end)
        try:
            try:
                for thread in threads:
                    thread.start()
                yield ends
            finally:
                end()
                atexit.unregister(end)
        except BaseException as error:
            if not failed:
                raise
            if not (isinstance(error, Refusal) and error.reason == Reason.HALTED):
                _hang(_failure(failed), error)
                raise
        if failed:
            raise _failure(failed)

    @contextmanager
    def sender(self) -> Iterator[Sender]:
        """Opens the ring and starts a thread for each handler; at the end of the `with` the ring is closed, and waits until each
        handler had every event. Where one raised, that raises HandlerFailed, or hangs it on what is raised in its place.

        Ctrl-C while it waits leaves the `with` and loses no event: the handlers go on, `completed` says how far they are, and the
        end of the program waits for them. So let go nothing that they use before each completed what the sender published; one more
        Ctrl-C at the program's end cuts them off."""
        with self._running(None) as ends:
            yield ends.senders[0]

    @contextmanager
    def senders(self, count: int) -> Iterator[list[Sender]]:
        """The same with several senders, 1 to 16, each for a thread of its own, which end before the `with` does."""
        with self._running(count) as ends:
            yield ends.senders
