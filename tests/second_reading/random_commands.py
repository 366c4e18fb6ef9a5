"""Random records of a command file: most of them lawful, so that a long file reaches far into an exchange.

Commands are played on an exchange of machine.py as they are made: a move asks it what may come next.
"""

from machine import Refused
from reading import Fault, Setup, answer, ring_of

LETTERS = "abcdefghijklmnopqrstuvwxyzABCDEFGHIJKLMNOPQRSTUVWXYZ0123456789_-"
# Names that no handler has: some that none may have, and one that none is given.
STRANGE_NAMES = (b"", b" ", b"a b", b"caf\xc3\xa9", b"\xff", b"x" * 33, b"a\0", b"nobody", b"a\n", b"a,b", b'"')
HUGE = (2**32, 2**62, 2**62 + 1, 2**63, 2**64 - 1)


def field(value):
    return value if isinstance(value, bytes) else str(value).encode()


def record(*values):
    return [field(value) for value in values]


def near(random, *numbers):
    """One of these numbers or a number beside it, and now and then a huge one."""
    if random.random() < 0.1:
        return random.choice(HUGE)
    return max(0, random.choice(numbers) + random.choice((-1, 0, 0, 1)))


# The setup.


def a_ring(random):
    size = random.choice((1, 2, 4, 4, 8, 8, 16, 32)) if random.random() < 0.9 else 2 ** random.randrange(17)
    if random.random() < 0.5:
        return record("ring", size, "single")
    return record("ring", size, "multi", random.randint(1, 4) if random.random() < 0.8 else random.randint(1, 16))


def a_limit(random):
    return record("limit", random.choice((1, 2, 5, 10, 20, 50, 100, 1000, 2**62 - 1, 2**62)))


def new_names(random, count):
    names = {}
    while len(names) < count:
        length = random.choice((1, 2, 5, 32)) if random.random() < 0.3 else 2
        names["".join(random.choices(LETTERS, k=length)).encode()] = None
    return list(names)


def connected(random, names):
    """Handlers that are declared at once, and then connected in an order of their own."""
    yield [b"with", *names]
    order = random.sample(names, len(names))
    for _ in range(random.randrange(2 * len(names))):
        up, down = sorted(random.choices(range(len(names)), k=2))
        if up < down or random.random() < 0.02:
            yield [b"edge", order[up], order[down]]
    if random.random() < 0.03:
        yield [b"edge", *random.choices(names, k=2)]


def grouped(random, names):
    """Handlers that are declared group by group."""
    declared = []
    while len(declared) < len(names):
        words = [b"with", b"then", b"then", b"after"] if declared else [b"with"]
        word = random.choice(words)
        if word == b"after":
            yield [word, *random.choices(declared, k=random.randint(1, 3))]
            word = b"then"
        group = names[len(declared) : len(declared) + random.choice((1, 1, 1, 2, 3, 16))]
        declared += group
        yield [word, *group]
        if random.random() < 0.2:
            up, down = sorted(random.choices(range(len(declared)), k=2))
            if up < down:
                yield [b"edge", declared[up], declared[down]]


def setup_records(random):
    yield a_ring(random)
    if random.random() < 0.3:
        yield a_limit(random)
    count = random.choice((1, 1, 2, 2, 3, 3, 4, 5, 8, 16))
    yield from random.choice((connected, grouped, grouped))(random, new_names(random, count))
    yield record("start")


# Commands that are accepted.


def room(exchange):
    free = exchange.size + exchange.gate() - exchange.next()
    return 0 if exchange.halted else min(free, exchange.limit - exchange.next())


def open_sequences(exchange):
    """The first sequences that are claimed and not published."""
    few = range(exchange.front, min(exchange.next(), exchange.front + 64))
    return [s for s in few if s not in exchange.published]


def claims(random, exchange):
    if room(exchange) > 0:
        most = room(exchange) if random.random() < 0.3 else min(room(exchange), 4)
        yield record("claim", random.randrange(exchange.producers), random.randint(1, most))


def an_event(random):
    first = random.choice(HUGE) if random.random() < 0.05 else random.randrange(100)
    second = random.choice((0, 1, random.randrange(100), 2**64 - 1))
    return [first] if random.random() < 0.6 else [first, second]


def writes(random, exchange):
    choices = open_sequences(exchange)
    unwritten = [s for s in choices if s not in exchange.written]
    if random.random() < 0.9:
        choices = unwritten
    if choices:
        s = random.choice(choices)
        yield record("write", exchange.owners[s], s, *an_event(random))


def publications(random, exchange):
    ready = [s for s in open_sequences(exchange) if s in exchange.written]
    firsts = [s for s in ready if s == exchange.front or not exchange.is_single]
    if firsts:
        lo = hi = random.choice(firsts)
        p = exchange.owners[lo]
        while hi + 1 in ready and exchange.owners[hi + 1] == p and random.random() < 0.8:
            hi += 1
        yield record("publish", p, lo, hi)


def polls(random, exchange):
    left = exchange.left()
    waiting = [handler for handler in left if exchange.taken[handler] < exchange.available(handler)]
    handler = random.choice(waiting if waiting and random.random() < 0.8 else left)
    yield record("poll", handler, random.choice((1, 2, 3, 8, 65536, 65537, 2**64 - 1)))


def completions(random, exchange):
    behind = [handler for handler in exchange.left() if exchange.completed[handler] < exchange.taken[handler]]
    if behind:
        handler = random.choice(behind)
        upto = exchange.taken[handler]
        if random.random() < 0.4:
            upto = random.randint(exchange.completed[handler], upto)
        yield record("complete", handler, upto)


def retirements(random, exchange):
    ends = [handler for handler in exchange.left() if not exchange.is_followed(handler)]
    if len(exchange.left()) > 1 and random.random() < 0.1:
        yield record("retire", random.choice(ends))


def halts(random, exchange):
    if random.random() < 0.03:
        yield record("halt")


MOVES = (claims, writes, writes, writes, publications, polls, polls, completions, completions, retirements, halts)


def a_round(random, exchange):
    """Claims, writes, publishes and handles some events: every handler ends with all of them."""
    n = min(room(exchange), random.choice((1, 2, 3, 8)))
    p, first = random.randrange(exchange.producers), exchange.next()
    if n > 0:
        yield record("claim", p, n)
        for s in range(first, first + n):
            yield record("write", p, s, *an_event(random))
        yield record("publish", p, first, first + n - 1)
    for handler in exchange.left() * 2:
        if exchange.taken[handler] < exchange.available(handler):
            yield record("poll", handler, 65536)
            yield record("complete", handler, exchange.taken[handler])


# Commands of any kind.


def any_name(random, exchange):
    if random.random() < 0.1:
        return random.choice(STRANGE_NAMES)
    return random.choice(list(exchange.upstreams))


def any_producer(random, exchange):
    return near(random, exchange.producers - 1) if random.random() < 0.2 else random.randrange(exchange.producers)


def wild(random, exchange):
    p, handler = any_producer(random, exchange), any_name(random, exchange)
    taken, completed = exchange.taken.get(handler, 0), exchange.completed.get(handler, 0)
    front, last = exchange.front, exchange.next()
    claim = record("claim", p, near(random, 0, 1, exchange.size, room(exchange), exchange.limit - last))
    publish = record("publish", p, near(random, front, front, front + 1, last - 1), near(random, front + 1, last - 1))
    write = record("write", p, near(random, 0, front, last - 1, last), *an_event(random))
    complete = record("complete", handler, near(random, 0, taken, completed))
    poll = record("poll", handler, near(random, 0, 1, exchange.size))
    yield random.choice((claim, claim, publish, publish, write, complete, poll, record("retire", handler)))


def play(random, exchange, moves):
    """Makes each record of some moves, and plays it."""
    for fields in moves(random, exchange):
        try:
            answer(exchange, fields)
        except Refused:
            pass
        yield fields


def command_records(random):
    """A whole file of records, with no fault of the input but perhaps a cycle."""
    setup = exchange = None
    for fields in setup_records(random):
        yield fields
        try:
            if setup:
                exchange = setup.take(fields)
            else:
                setup = Setup(ring_of(fields))
        except Fault:
            return
    for _ in range(random.choice((0, 0, 1, 3, 10))):
        yield from play(random, exchange, a_round)
    for _ in range(random.choice((5, 20, 20, 60, 200))):
        moves = wild if random.random() < 0.15 else random.choice(MOVES)
        yield from play(random, exchange, moves)
