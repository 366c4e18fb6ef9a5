"""How a thread waits that looks again and again."""

from __future__ import annotations

import threading
import time

_YIELDING_LOOKS = 50
_LONGEST_SLEEP = 0.01


class Bell:
    """Wakes those that sleep. A thread first says that it sleeps, and then looks once more; who changed something asks afterwards.

    Each that sleeps has a lock of its own, and who takes it from the list opens it. So no lock is held in a step where an interrupt
    could leave it locked, or where a signal's handler that rings would wait for its own thread."""

    def __init__(self) -> None:
        self._sleepers: list[threading.Lock] = []

    def ring(self) -> None:
        # (those that come meanwhile look after the change)
        for _ in range(len(self._sleepers)):
            try:
                self._sleepers.pop(0).release()
            except IndexError:
                return

    def listen(self) -> threading.Lock:
        sleeper = threading.Lock()
        sleeper.acquire()
        self._sleepers.append(sleeper)
        return sleeper

    def sleep(self, sleeper: threading.Lock) -> None:
        """Sleeps until a ring after the listening that answered `sleeper`, ten milliseconds at most."""
        sleeper.acquire(timeout=_LONGEST_SLEEP)
        self.stop_listening(sleeper)

    def stop_listening(self, sleeper: threading.Lock) -> None:
        try:
            self._sleepers.remove(sleeper)
        except ValueError:
            pass


class Waiting:
    """Yields the interpreter after each of some looks that find nothing, and then sleeps by the bell."""

    def __init__(self, bell: Bell):
        self._bell, self._looks = bell, 0
        self._heard: threading.Lock | None = None

    def wait(self) -> None:
        if self._looks < _YIELDING_LOOKS:
            self._looks += 1
            time.sleep(0)
            return
        if self._heard is not None:
            self._bell.sleep(self._heard)
        self._heard = self._bell.listen()

    def found(self) -> None:
        self._looks = 0
        if self._heard is not None:
            self._bell.stop_listening(self._heard)
            self._heard = None
