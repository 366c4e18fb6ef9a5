"""A second reading of what the ledger writes: its journal, and its answers, from docs/FORMATS.md alone."""

import random

HEADER = b"DISRUPT1"


def records_of(data):
    """The records that a journal's bytes stand for, or None where they are no journal's."""
    if not data.startswith(HEADER):
        return [] if HEADER.startswith(data) else None
    *batches, _torn = data[len(HEADER) :].partition(b"\0")[0].split(b"\2")
    return [plain(record) for batch in batches for record in batch.split(b"\1")[:-1]]


def plain(record):
    """The bytes of a record: 3 says that 4 is to be taken from the next one."""
    for byte in range(4):
        record = record.replace(bytes([3, byte + 4]), bytes([byte]))
    return record


def record_of(line):
    """The record of an operation, a line of an event file."""
    producer, kind, account, *rest = line.split(",")
    code = {"deposit": 1, "withdraw": 2, "transfer": 3}[kind]
    first = int(producer) << 56 | code << 48 | int(account) << 32
    second = 0
    if code == 3:
        second = int(rest[0]) << 48 | int(rest[1])
    else:
        first |= int(rest[0])
    return first.to_bytes(8, "little") + second.to_bytes(8, "little")


class Bank:
    """Answers operations one by one."""

    def __init__(self):
        self.balances, self.count = {}, 0

    def answer(self, line):
        _, kind, account, *rest = line.split(",")
        amount, balances = int(rest[-1]), self.balances
        done = kind == "deposit" or balances.get(account, 0) >= amount
        if kind == "deposit":
            balances[account] = balances.get(account, 0) + amount
        elif done:
            balances[account] = balances.get(account, 0) - amount
            if kind == "transfer":
                balances[rest[0]] = balances.get(rest[0], 0) + amount
        said = f"{self.count} {'applied' if done else 'refused'} {balances.get(account, 0)}"
        self.count += 1
        return said


def any_operation(rng: random.Random):
    kind = rng.choice(("deposit", "deposit", "withdraw", "transfer"))
    words = [str(rng.randrange(16)), kind, str(rng.randrange(50))]
    if kind == "transfer":
        words.append(str(rng.randrange(50)))
    return ",".join([*words, str(rng.randrange(1, 1000))])
