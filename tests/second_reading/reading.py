"""The files, as docs/FORMATS.md says them: what `drive` and `replay` write, and how they end.

It is written from the docs, and shares nothing with the program: a second reading of the same pages.
"""

import re
from collections import namedtuple

from machine import Exchange, Refused

Outcome = namedtuple("Outcome", "status out err")
Ring = namedtuple("Ring", "size producers")

MOST_HANDLERS = 16
MOST_PRODUCERS = 16
GREATEST_SIZE = 65536
GREATEST_LIMIT = 2**62

MARK = b"\xef\xbb\xbf"
LINE_ENDS = re.compile(rb"[\r\n]*")
# A field that begins with a quote goes to the quote that closes it, if one does, and on to a comma or a line's end.
FIELD = re.compile(rb'"([^"]*(?:""[^"]*)*)"?([^,\r\n]*)|([^,\r\n]*)')
NAME = re.compile(rb"[A-Za-z0-9_-]{1,32}")
DIGITS = re.compile(rb"0*([0-9]{1,20})")


class Fault(Exception):
    """The cause of a fault of the input."""


def check(cause, is_so):
    if not is_so:
        raise Fault(cause)


# Records, fields and numbers.


def records(text):
    """The records of a text, each a list of fields."""
    at = len(MARK) if text.startswith(MARK) else 0
    found = []
    while True:
        at = LINE_ENDS.match(text, at).end()
        if at == len(text):
            return found
        fields = []
        while True:
            field = FIELD.match(text, at)
            quoted, rest, plain = field.groups()
            fields.append(plain if quoted is None else quoted.replace(b'""', b'"') + rest)
            at = field.end()
            if text[at : at + 1] != b",":
                break
            at += 1
        found.append(fields)


def number(field, below=2**64):
    digits = DIGITS.fullmatch(field)
    check("bad record", digits and int(digits[1]) < below)
    return int(digits[1])


# The setup.


def ring_of(fields):
    check("no ring", fields[0] == b"ring")
    check("bad record", len(fields) in (3, 4))
    check("bad record", fields[2] == (b"single" if len(fields) == 3 else b"multi"))
    size = number(fields[1])
    producers = number(fields[3]) if len(fields) == 4 else None
    check("bad-size", size in [2**k for k in range(17)])
    check("bad-producers", producers is None or 1 <= producers <= MOST_PRODUCERS)
    return Ring(size, producers)


class Setup:
    """The records before `start`: `edges` are pairs of names, upstream first."""

    def __init__(self, ring):
        self.ring, self.limit, self.may_limit = ring, GREATEST_LIMIT, True
        self.names, self.edges, self.group = [], [], None

    def take(self, fields):
        """Takes a record, and answers the exchange where it is `start`."""
        word, given = fields[0], fields[1:]
        if word == b"limit":
            check("bad record", self.may_limit and len(given) == 1)
            self.limit = number(given[0])
            check("bad-limit", 1 <= self.limit <= GREATEST_LIMIT)
        elif word in (b"with", b"then", b"after"):
            check("bad record", given)
            {b"with": self.declare, b"then": self.follow, b"after": self.regroup}[word](given)
        elif word == b"edge":
            check("bad record", len(given) == 2)
            check("stranger", all(name in self.names for name in given))
            self.edges.append(tuple(given))
        else:
            check("bad record", word == b"start" and not given)
            return self.start()
        self.may_limit = False
        return None

    def declare(self, given):
        names = set(self.names)
        for name in given:
            check("bad-name", NAME.fullmatch(name))
            check("duplicate", name not in names)
            names.add(name)
        check("too-many", len(names) <= MOST_HANDLERS)
        self.names += given
        self.group = given

    def follow(self, given):
        check("no group", self.group is not None)
        ups = self.group
        self.declare(given)
        self.edges += [(up, name) for up in ups for name in given]

    def regroup(self, given):
        check("stranger", all(name in self.names for name in given))
        self.group = list(dict.fromkeys(given))

    def start(self):
        check("no-handlers", self.names)
        ups = {name: [up for up, down in self.edges if down == name] for name in self.names}
        placed = set()
        while len(placed) < len(ups):
            ready = [name for name in ups if name not in placed and placed.issuperset(ups[name])]
            check("cycle", ready)
            placed.update(ready)
        return Exchange(self.ring.size, self.ring.producers, self.limit, ups)


# The commands, with how many fields may come after the word.

FIELDS_AFTER = {
    b"claim": (2,),
    b"write": (3, 4),
    b"publish": (3,),
    b"poll": (2,),
    b"complete": (2,),
    b"halt": (0,),
    b"retire": (1,),
}


def answer(exchange, fields):
    """The line of a record after `start`."""
    word, given = fields[0], fields[1:]
    check("bad record", len(given) in FIELDS_AFTER.get(word, ()))
    name = given[:1] if word in (b"poll", b"complete", b"retire") else []
    words = name + [number(field) for field in given[len(name) :]]
    if word == b"write":
        p, s, first, second = (words + [0])[:4]
        words = [p, s, (first, second)]
    try:
        return getattr(exchange, word.decode())(*words)
    except Refused as refused:
        return str(refused)


def drive(text, state_line=lambda exchange: ""):
    """What `disruptor drive` does with a file of this text; `state_line` is what it tells after each reply."""
    setup = exchange = None
    lines, k, err = [], 1, ""
    try:
        for k, fields in enumerate(records(text), 1):
            if exchange:
                lines.append(answer(exchange, fields) + "\n" + state_line(exchange))
            elif setup:
                exchange = setup.take(fields)
            else:
                setup = Setup(ring_of(fields))
        if not exchange:
            k += 1 if setup else 0
            raise Fault("no start" if setup else "no ring")
    except Fault as fault:
        err = f"record {k}: {fault}\n"
    return Outcome(2 if err else 0, "".join(lines).encode(), err.encode())


# The replay. An operation is its producer, its word, its accounts and its amount.

CODES = {"deposit": 1, "withdraw": 2, "transfer": 3}


def operation(fields):
    word = next((word for word in CODES if fields[1:2] == [word.encode()]), None)
    accounts = 2 if word == "transfer" else 1
    check("bad record", word and len(fields) == 3 + accounts)
    named = [number(field, 2**16) for field in fields[2:-1]]
    return (number(fields[0], 16), word, *named, number(fields[-1], 2**48 if accounts == 2 else 2**32))


def digits_of(operation):
    """An event's words, in hexadecimal digits."""
    producer, word, account, *other, amount = operation
    head = f"{producer:02x}{CODES[word]:02x}{account:04x}"
    return f"{head}{0:08x}{other[0]:04x}{amount:012x}" if other else f"{head}{amount:08x}"


def balances(operations):
    """The line of each account that is named."""
    balance = {account: 0 for operation in operations for account in operation[2:-1]}
    refused = dict.fromkeys(balance, 0)
    for _, word, account, *other, amount in operations:
        if word == "deposit":
            balance[account] += amount
        elif balance[account] < amount:
            refused[account] += 1
        else:
            balance[account] -= amount
            for gains in other:
                balance[gains] += amount
    return [f"{account},{balance[account]},{refused[account]}" for account in sorted(balance)]


def report(operations):
    journal = [",".join(map(str, (s, *operation))) for s, operation in enumerate(operations)]
    replica = [digits_of(operation) for operation in operations]
    business = balances(operations)
    count = len(operations)
    lines = [f"journal {count}", *journal, f"replica {count}", *replica, f"business {count}", *business]
    return "".join(f"{line}\n" for line in lines).encode()


def operations_of(text):
    """The operations of a file, or the fault of its first bad record."""
    found = []
    for k, fields in enumerate(records(text), 1):
        try:
            found.append(operation(fields))
        except Fault as fault:
            raise Fault(f"record {k}: {fault}\n") from None
    return found


def replay(text):
    """What `disruptor replay` does with a file of this text, by plain and by ring."""
    try:
        return Outcome(0, report(operations_of(text)), b"")
    except Fault as fault:
        return Outcome(2, b"", str(fault).encode())
