#!/usr/bin/env python3
"""Makes random calls twice, as the commands of `disruptor drive` and from C over libdisruptor.so, and compares each reply.

    tests/over_c.py PROGRAM LIBRARY [RUNS [FIRST]]

Every run is of one sender or of several, of events of two words, of bytes or in slots, of a graph, a size, a limit and calls of its
own, by the seeds FIRST, FIRST + 1 and so on. The first ones, one of each kind, have 16 handlers, each of which follows all before it.
After each call the halter says how far the ring is, as `drive --state` does, but that of one sender of two words.
Many calls are refused. A ring of one sender says that it drained only once it is closed, so a run halts at its end, where all that is
claimed is published.

In a ring of slots the events lie in a list of this program's, where they are written and read. A publication of slots is the
commands that write what lies there of the sender's own, and then the one that publishes.
"""

import os
import random
import struct
import subprocess
import sys
import tempfile
from functools import partial

sys.dont_write_bytecode = True
TOP = os.path.dirname(os.path.dirname(os.path.abspath(__file__)))
sys.path.insert(0, f"{TOP}/tests")
import library_calls  # noqa: E402

CALLS = 200
# (of handlers, and of senders)
MOST = 16
KINDS = ["words", "bytes", "slots", "several", "slots of several"]
WORDS = struct.Struct("<QQ")


class Exchange:
    """A ring over C, which says what each call answered as `drive` does, beside the records of a command file."""

    def __init__(self, library, chance, whole=None):
        self.chance, self.library = chance, library
        self.size = 1 << chance.randrange(6)
        self.limit = chance.choice([1, 40, library_calls.MAX_LIMIT])
        handlers = chance.randrange(1, chance.choice([6, MOST + 1]))
        masks = [sum(1 << up for up in range(k) if chance.random() < 0.4) for k in range(handlers)]
        kind = chance.choice(KINDS)
        if whole:
            handlers, masks, kind = MOST, [(1 << k) - 1 for k in range(MOST)], whole
        self.is_single, self.is_of_bytes, self.is_of_slots = "several" not in kind, kind == "bytes", "slots" in kind
        self.slots = [(0, 0)] * self.size
        if self.is_single and kind != "words":
            opened = library_calls.open_bytes(library, self.size, WORDS.size if self.is_of_bytes else 0, masks, self.limit)
            sender, self.receivers, self.halter = opened
            self.senders, mode = [sender], "single"
        elif self.is_single:
            sender, self.receivers, self.halter = library_calls.open(library, self.size, masks, self.limit)
            self.senders, mode = [sender], "single"
        else:
            several = chance.randrange(1, chance.choice([5, MOST + 1]))
            self.senders, self.receivers, self.halter = library_calls.open_several(library, self.size, masks, several, self.limit)
            mode = f"multi,{several}"
        self.claimed = 0
        # (the sender of each sequence that is claimed and not published)
        self.owner = {}
        self.taken, self.completed = [0] * handlers, [0] * handlers
        self.records = [f"ring,{self.size},{mode}", f"limit,{self.limit}", "with," + ",".join(f"h{k}" for k in range(handlers))]
        self.records += [f"edge,h{up},h{k}" for k in range(handlers) for up in range(k) if masks[k] >> up & 1]
        self.records += ["start"]
        self.replies, self.told = [], []

    def call(self, record, line, call, *arguments):
        """Makes a call, and notes its record and what `drive` says of it. Returns the answer, or None where it was refused."""
        self.records.append(record)
        try:
            answer = call(*arguments)
        except library_calls.Refusal as refusal:
            self.note(f"refused {refusal.number} {refusal}")
            return None
        self.note(line(answer))
        return answer

    def note(self, reply):
        """Notes a reply, and what the halter says then: the cursor, and how many events each handler completed."""
        self.replies.append(reply)
        asked = [self.halter.cursor, *(partial(self.halter.completed, k) for k in range(len(self.receivers)))]
        self.told.append([number_or_refusal(it) for it in asked])

    def wanted_of(self, state):
        """What the halter has to say where `drive --state` says this."""
        _, _, claimed, _, published, _, _, *handlers = state.split()
        completed = dict(zip(handlers[::3], handlers[2::3]))
        counts = [published if self.is_single else claimed, *(completed[f"h{k}"] for k in range(len(self.receivers)))]
        tells = self.is_of_bytes or self.is_of_slots or not self.is_single
        return [int(it) if tells else "wrong-end" for it in counts]

    def near(self, count):
        """A number that is mostly near one that matters, and rarely far from all."""
        if self.chance.random() < 0.02:
            return self.chance.choice([0, (1 << 62) + 1, (1 << 64) - 1])
        return min(max(0, count + self.chance.choice([-1, 0, 0, 0, 1, 2])), (1 << 64) - 1)

    def claim(self, p, n):
        lo = self.call(f"claim,{p},{n}", lambda lo: f"claimed {lo} {lo + n - 1}", self.senders[p].claim, n)
        if lo is not None:
            self.claimed = lo + n
            self.owner.update(dict.fromkeys(range(lo, lo + n), p))

    def write(self, p, sequence):
        first, second = self.chance.randrange(1 << 64), self.chance.choice([0, 1, (1 << 64) - 1])
        if self.is_of_slots:
            if self.owner.get(sequence) == p:
                self.slots[sequence % self.size] = first, second
            return
        event = (WORDS.pack(first, second),) if self.is_of_bytes else (first, second)
        self.call(f"write,{p},{sequence},{first},{second}", lambda _: "written", self.senders[p].write, sequence, *event)

    def publish(self, p, lo, hi):
        if self.is_of_slots:
            for sequence in sorted(it for it, owner in self.owner.items() if owner == p and lo <= it <= hi):
                first, second = self.slots[sequence % self.size]
                self.call(f"write,{p},{sequence},{first},{second}", lambda _: "written", lambda: None)
        publish = self.senders[p].publish_slots if self.is_of_slots else self.senders[p].publish
        self.call(f"publish,{p},{lo},{hi}", lambda _: "published", publish, lo, hi)
        if self.replies[-1] == "published":
            for sequence in range(lo, hi + 1):
                del self.owner[sequence]

    def first_of(self, p):
        """The first sequence that a sender claimed and did not publish, or the next to be claimed."""
        return min((it for it, owner in self.owner.items() if owner == p), default=self.claimed)

    def poll(self, k, room):
        events = (library_calls.Event * (0 if self.is_of_bytes or self.is_of_slots else room))()

        def pairs(offer):
            if self.is_of_slots:
                return [self.slots[(offer.first + at) % self.size] for at in range(offer.count)]
            if self.is_of_bytes:
                return [WORDS.unpack(self.receivers[k].read(offer.first + at)) for at in range(offer.count)]
            return [(it.first, it.second) for it in events[: offer.count]]

        def line(offer):
            if offer.kind != library_calls.BATCH:
                return {library_calls.GATING: "gating", library_calls.IDLE: "idle", library_calls.DRAINED: "drained"}[offer.kind]
            shown = [f"{first}:{second}" if second else f"{first}" for first, second in pairs(offer)]
            return " ".join([f"batch {offer.first}", "end" if offer.end else "more", *shown])

        poll = self.receivers[k].poll_slots if self.is_of_slots else self.receivers[k].poll
        offer = self.call(f"poll,h{k},{room}", line, poll, room if self.is_of_bytes or self.is_of_slots else events)
        if offer is not None and offer.kind == library_calls.BATCH:
            self.taken[k] = offer.first + offer.count

    def complete(self, k, upto):
        self.call(f"complete,h{k},{upto}", lambda _: "completed", self.receivers[k].complete, upto)
        if self.replies[-1] == "completed":
            self.completed[k] = upto

    def step(self):
        """Makes one random call."""
        k, p = self.chance.randrange(len(self.receivers)), self.chance.randrange(len(self.senders))
        kind = self.chance.randrange(8)
        if kind == 0:
            self.claim(p, self.near(self.chance.randrange(self.size + 1)))
        elif kind < 4:
            self.write(p, self.near(self.chance.choice([self.first_of(p), self.first_of(p) + 1, self.claimed])))
        elif kind == 4:
            lo = self.near(self.first_of(p))
            self.publish(p, lo, self.near(self.chance.randrange(lo, max(self.claimed, lo + 1))))
        elif kind < 7:
            self.poll(k, self.chance.choice([0, 1, 2, self.size, 64]))
        else:
            self.complete(k, self.near(self.taken[k]))

    def goes_as_far(self):
        """Whether each end says that it came as far as its answers say."""
        ends = list(zip(self.receivers, zip(self.taken, self.completed)))
        if self.is_single:
            ends.append((self.senders[0], (self.claimed, self.claimed - len(self.owner))))
        return all(end.progress() == counts for end, counts in ends)

    def end(self):
        """Publishes what is claimed, halts, and polls each handler to the end, upstreams first."""
        for sequence, p in sorted(self.owner.items()):
            self.write(p, sequence)
            self.publish(p, sequence, sequence)
        if self.is_single:
            self.senders[0].close()
        else:
            self.halter.halt()
        self.records.append("halt")
        self.note("halting")
        self.claim(0, 1)
        for k in range(len(self.receivers)):
            self.poll(k, 3)
            while self.replies[-1] != "drained":
                self.complete(k, self.taken[k])
                self.poll(k, 3)
            self.complete(k, self.taken[k])


def number_or_refusal(call):
    """What a call returns, or the name of what it is refused with."""
    try:
        return call()
    except library_calls.Refusal as refusal:
        return str(refusal)


def said(program, records, folder):
    """Returns what `drive` says of records, and its states."""
    path = os.path.join(folder, "calls.csv")
    with open(path, "w", encoding="utf-8") as file:
        file.write("".join(f"{it}\n" for it in records))
    words = [program, "drive", "--state", path]
    ran = subprocess.run(words, stdout=subprocess.PIPE, stderr=subprocess.PIPE, timeout=60, check=False)
    lines = ran.stdout.decode().splitlines() + ran.stderr.decode().splitlines()
    return [it for it in lines if not it.startswith("state ")], [it for it in lines if it.startswith("state ")]


def first_other(some, others):
    """Where two lists differ first, or at the end of the first one."""
    return next((k for k, (one, other) in enumerate(zip(some, others)) if one != other), len(some))


def fault_of(exchange, replies, states):
    """What C says other than `drive`, or None."""
    made = exchange.records[len(exchange.records) - len(exchange.replies) :]
    if replies != exchange.replies:
        at = first_other(replies, exchange.replies)
        return f"{made[at : at + 1]}: C says {exchange.replies[at : at + 1]}, drive {replies[at : at + 1]}"
    told = [exchange.wanted_of(it) for it in states]
    if told != exchange.told:
        at = first_other(told, exchange.told)
        return f"after {made[at : at + 1]} the halter says {exchange.told[at : at + 1]}, and drive {states[at : at + 1]}"
    return None


def main():
    if len(sys.argv) < 3:
        sys.exit("usage: tests/over_c.py PROGRAM LIBRARY [RUNS [FIRST]]")
    program, library = os.path.abspath(sys.argv[1]), os.path.abspath(sys.argv[2])
    runs = int(sys.argv[3]) if len(sys.argv) > 3 else 200
    first = int(sys.argv[4]) if len(sys.argv) > 4 else 1
    failed = calls = refused = 0
    with tempfile.TemporaryDirectory() as folder:
        for seed in range(first, first + runs):
            exchange = Exchange(library, random.Random(seed), dict(enumerate(KINDS, first)).get(seed))
            for _ in range(CALLS):
                exchange.step()
            as_far = exchange.goes_as_far()
            exchange.end()
            as_far = exchange.goes_as_far() and as_far
            fault = fault_of(exchange, *said(program, exchange.records, folder))
            calls += len(exchange.replies)
            refused += sum(it.startswith("refused") for it in exchange.replies)
            if not as_far:
                failed += 1
                print(f"FAILED: seed {seed}: an end does not say how far it came")
            elif fault:
                failed += 1
                print(f"FAILED: seed {seed}: {fault}")
    print(f"over C and by drive: {runs} runs, {calls} calls, {refused} of them refused, {failed} failed")
    sys.exit(failed > 0)


if __name__ == "__main__":
    main()
