"""The exchange, as docs/MEANING.md says it: lists and sets by sequence, without a bound, and no ring.

A call answers with the line of its reply, as docs/FORMATS.md shows it, or raises `Refused`, which changes nothing.
"""

REFUSALS = {
    1: "no-room",
    2: "halted",
    3: "bad-count",
    4: "exhausted",
    5: "not-claimed",
    6: "already-published",
    7: "not-written",
    8: "out-of-order",
    9: "not-taken",
    10: "behind",
    11: "no-producer",
    12: "no-handler",
    13: "retired",
    14: "not-final",
    15: "last-handler",
}


class Refused(Exception):
    """The first test of a command that held."""

    def __init__(self, number):
        super().__init__(f"refused {number} {REFUSALS[number]}")


def refuse(number, holds):
    if holds:
        raise Refused(number)


def shown(event):
    first, second = event
    return f"{first}:{second}" if second else f"{first}"


class Exchange:
    """`producers` is None with the one producer of `single`. Handlers go by name, each with its direct upstreams.

    `owners` has the producer of each claimed sequence; `front` is the least sequence that is not published.
    """

    def __init__(self, size, producers, limit, upstreams):
        self.size, self.limit, self.upstreams = size, limit, upstreams
        self.is_single = producers is None
        self.producers = 1 if self.is_single else producers
        self.owners = []
        self.written = {}
        self.published = set()
        self.front = 0
        self.taken = dict.fromkeys(upstreams, 0)
        self.completed = dict.fromkeys(upstreams, 0)
        self.halted = False
        self.retired = set()

    # What the state says.

    def next(self):
        """How many sequences are claimed."""
        return len(self.owners)

    def cursor(self):
        return self.front if self.is_single else self.next()

    def available(self, handler):
        """What the handler's barrier lets through."""
        ups = self.upstreams[handler]
        return min(self.completed[up] for up in ups) if ups else self.front

    def left(self):
        """The handlers that are not retired."""
        return [handler for handler in self.upstreams if handler not in self.retired]

    def is_followed(self, handler):
        return any(handler in self.upstreams[other] for other in self.left())

    def gate(self):
        """The least completed count of the final handlers."""
        return min(self.completed[handler] for handler in self.left() if not self.is_followed(handler))

    # The commands. Each tests its refusals in the page's order.

    def claim(self, p, n):
        refuse(11, p >= self.producers)
        refuse(3, n == 0 or n > self.size)
        refuse(2, self.halted)
        refuse(4, self.next() + n > self.limit)
        refuse(1, self.next() + n > self.size + self.gate())
        first = self.next()
        self.owners += [p] * n
        return f"claimed {first} {first + n - 1}"

    def write(self, p, s, event):
        refuse(11, p >= self.producers)
        refuse(5, s >= self.next())
        refuse(6, s in self.published)
        refuse(5, self.owners[s] != p)
        self.written[s] = event
        return "written"

    def publish(self, p, lo, hi):
        refuse(11, p >= self.producers)
        refuse(3, lo > hi)
        refuse(5, hi >= self.next())
        for s in range(lo, hi + 1):
            refuse(6, s in self.published)
            refuse(5, self.owners[s] != p)
            refuse(7, s not in self.written)
        refuse(8, self.is_single and lo != self.front)
        self.published.update(range(lo, hi + 1))
        while self.front in self.published:
            self.front += 1
        return "published"

    def test_handler(self, handler):
        refuse(12, handler not in self.upstreams)
        refuse(13, handler in self.retired)

    def poll(self, handler, most):
        self.test_handler(handler)
        refuse(3, most == 0)
        first, available = self.taken[handler], self.available(handler)
        if first < available:
            after = min(first + most, available)
            self.taken[handler] = after
            words = [shown(self.written[s]) for s in range(first, after)]
            return " ".join(["batch", str(first), "end" if after == available else "more", *words])
        if self.halted and first == self.next():
            return "drained"
        return "gating" if first < self.cursor() else "idle"

    def complete(self, handler, upto):
        self.test_handler(handler)
        refuse(10, upto < self.completed[handler])
        refuse(9, upto > self.taken[handler])
        self.completed[handler] = upto
        return "completed"

    def halt(self):
        self.halted = True
        return "halting"

    def retire(self, handler):
        self.test_handler(handler)
        refuse(14, self.is_followed(handler))
        refuse(15, self.left() == [handler])
        self.retired.add(handler)
        return "retired"
