"""Work that runs side by side, and gives way to what else runs on the machine."""

import contextlib
import heapq
import os
import re
import signal
import threading
import time
from concurrent.futures import ThreadPoolExecutor

import prove

# So much memory, in kB, is free before further work begins: others go on beside it.
ROOM = 6_000_000
# How long, in seconds, the lanes look at what runs before they stop a process of theirs or have it go on.
LOOKS = 0.5


def running():
    """Returns how many threads run, or could, beside the one that asks."""
    return int(re.search(r"(\d+)/", open("/proc/loadavg", encoding="utf-8").read())[1]) - 1


def parents():
    """Returns each process with the one that started it."""
    found = {}
    for it in os.listdir("/proc"):
        with contextlib.suppress(OSError):
            if it.isdigit():
                found[int(it)] = int(open(f"/proc/{it}/stat", encoding="utf-8").read().rpartition(")")[2].split()[1])
    return found


def signalled(process, number):
    """Sends a signal to a process, and then to all that it started, and that these did."""
    with contextlib.suppress(ProcessLookupError):
        os.kill(process, number)
        for it in [it for it, parent in parents().items() if parent == process]:
            signalled(it, number)


class Lanes:
    """Work that runs side by side, one piece on each processor as far as memory goes, the most urgent first. Work may add more. While
    they are held, it goes only on processors that others leave idle: two checks on one take more of its time than one after the other.
    So no work begins then as long as all processors are busy, and of the processes that it runs, those in `processes`, some stop."""

    def __init__(self, processes):
        self.ready, self.added, self.running, self.changed = [], 0, 0, threading.Condition()
        self.are_held, self.taken_at, self.processes, self.stopped = False, 0, processes, []

    def add(self, urgency, work):
        with self.changed:
            heapq.heappush(self.ready, (urgency, self.added, work))
            self.added += 1
            self.changed.notify()

    def take(self):
        """Returns the next work, once there is memory and a processor for it, or None where all is done."""
        with self.changed:
            while self.are_to_wait():
                self.changed.wait(1)
            self.running, self.taken_at = self.running + bool(self.ready), time.time()
            return heapq.heappop(self.ready)[2] if self.ready else None

    def are_to_wait(self):
        """Whether others keep all processors busy, as what was taken in this second may, or there is no work yet, or no memory for it."""
        if self.are_held and (self.stopped or time.time() < self.taken_at + 1 or running() >= prove.processors()):
            return True
        return bool(self.running or self.are_held) and (not self.ready or prove.memory() < ROOM)

    def hold(self, are_held):
        """Has the lanes wait for work that is still to be added, and give way, or no longer do so."""
        with self.changed:
            self.are_held = are_held
            self.changed.notify_all()
        if are_held:
            threading.Thread(target=self.give_way, daemon=True).start()

    def give_way(self):
        """While the lanes are held, stops a process where more threads run than there are processors, and has one go on where fewer do."""
        try:
            while self.are_held:
                time.sleep(LOOKS / 2)
                before = running()
                time.sleep(LOOKS / 2)
                counts = before - prove.processors(), running() - prove.processors()
                self.stop_or_go_on(min(counts), max(counts))
        finally:
            self.stop_or_go_on(-len(self.stopped), -len(self.stopped))

    def stop_or_go_on(self, least, most):
        """Stops the process that began last, where more threads run than there are to be, or has so many go on as there is room for."""
        self.stopped = [it for it in self.stopped if it in self.processes]
        for it in sorted(self.processes.difference(self.stopped))[-1:] if least > 0 else ():
            self.stopped.append(it)
            signalled(it, signal.SIGSTOP)
        for _ in range(min(-most, len(self.stopped))):
            signalled(self.stopped.pop(0), signal.SIGCONT)

    def release(self):
        with self.changed:
            self.running -= 1
            self.changed.notify_all()

    def go_on(self):
        while work := self.take():
            try:
                work()
            finally:
                self.release()

    def run(self):
        with ThreadPoolExecutor(prove.processors()) as pool:
            for it in [pool.submit(self.go_on) for _ in range(prove.processors())]:
                it.result()
