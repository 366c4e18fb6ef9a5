"""Random files of commands and of operations, with every fault that a file may have.

A file is made as records, each a list of fields. Then some of its records may be spoiled, and it is written in one of
the many ways in which the same records can stand; last, some bytes may be spoiled. One seed gives one file.
"""

from random import Random

from random_commands import STRANGE_NAMES, command_records, field, record

# What is no number, and numbers at the bounds of the formats.
STRANGE_NUMBERS = (b"", b"+1", b"-1", b" 1", b"1 ", b"0x1", b"1e3", b"1.0", b"\xd9\xa3", b"\xff", b"1\0", b'1"')
BOUNDS = (0, 1, 15, 16, 17, 2**16, 2**16 - 1, 2**32 - 1, 2**32, 2**48 - 1, 2**48, 2**62, 2**62 + 1, 2**64 - 1, 2**64)
LONG_NUMBERS = (b"18446744073709551616", b"99999999999999999999", b"0" * 40 + b"7", b"0" * 20, b"1" * 30)
WORDS = b"ring limit with then after edge start claim write publish poll complete halt retire Claim sing".split()
MORE_WORDS = b"deposit withdraw transfer Deposit".split() + [b"", b"\xff"]
HARD_BYTES = (b'"', b'""', b",", b"\n", b"\r", b"\r\n", b"\0", b"\xff", b"\xc3", b"\xef\xbb\xbf", b" ", b"\t", b"0")


def operation_records(random):
    """Operations over few accounts, so that some are refused."""
    accounts = random.sample((0, 1, 2, 3, 7, 255, 256, 4095, 65534, 65535), random.randint(1, 6))
    producers = random.sample(range(16), random.randint(1, 4))
    found = []
    for _ in range(random.choice((0, 1, 2, 5, 20, 50, 200))):
        word = random.choice(("deposit", "deposit", "withdraw", "transfer"))
        named = random.choices(accounts, k=2 if word == "transfer" else 1)
        most = 2**48 - 1 if word == "transfer" else 2**32 - 1
        amount = random.choice((0, most, random.randint(0, most))) if random.random() < 0.1 else random.randrange(200)
        found.append(record(random.choice(producers), word, *named, amount))
    return found


# Spoiled records.


def strange_field(random):
    kinds = (STRANGE_NUMBERS, STRANGE_NAMES, LONG_NUMBERS, BOUNDS, WORDS + MORE_WORDS)
    return field(random.choice(random.choice(kinds)))


def strange_ring(random):
    return random.choice(
        (
            record("ring", random.choice((0, 3, 6, 131072, 65537, 2**64 - 1)), "single"),
            record("ring", 4, random.choice(("both", "multi", "Single"))),
            record("ring", random.choice((3, 4, 4, 2**64)), "multi", random.choice((0, 16, 17, 2**64 - 1))),
            record(random.choice(("Ring", "ring", "")), 4, "single"),
        )
    )


def strange_setup(random, names):
    """A record that may be at fault in a setup, or out of its place."""
    one = random.choice(names)
    return random.choice(
        (
            strange_ring(random),
            record("limit", random.choice((0, 1, 2**62, 2**62 + 1))),
            record("then", "new", random.choice(STRANGE_NAMES + (b"newer",))),
            record("with", "new", random.choice(STRANGE_NAMES), one),
            record("with", "new", one, random.choice(STRANGE_NAMES)),
            record("with", "new", "new"),
            record("with", *(f"h{k}" for k in range(random.choice((13, 15, 16, 17, 40))))),
            record("after", one, random.choice((one, b"nobody", b"\xff"))),
            record("edge", one, random.choice((one, b"nobody", b"\xff"))),
            record("edge", one, random.choice(names)),
            record("start"),
            record(random.choice(WORDS)),
        )
    )


def names_of(records):
    declared = [name for fields in records[:20] if fields[0] in (b"with", b"then") for name in fields[1:]]
    return declared or [b"a"]


def spoil(random, records):
    """Changes the records at one place."""
    k = random.randrange(len(records))
    fields = records[k]
    way = random.randrange(10)
    if way in (0, 1):
        records.insert(min(k, random.choice((1, 1, 2, 3, 5))), strange_setup(random, names_of(records)))
    elif way == 2 and random.random() < 0.3:
        records[0] = strange_ring(random)
    elif way == 3:
        fields[random.randrange(len(fields))] = strange_field(random)
    elif way == 4:
        fields.insert(random.randint(0, len(fields)), strange_field(random))
    elif way == 5 and len(fields) > 1:
        del fields[random.randrange(len(fields))]
    elif way == 6 and len(records) > 1:
        del records[k]
    elif way == 7:
        other = random.randrange(len(records))
        records[k], records[other] = records[other], fields
    elif way == 8:
        records.insert(k, random.choice(records))
    else:
        del records[k + 1 :]


# Text.


def text_of_field(random, given, quotes):
    must = any(byte in given for byte in b',"\r\n')
    if given.isdigit() and random.random() < 0.02:
        given = b"0" * random.choice((1, 3, 40)) + given
    if (must and random.random() < 0.9) or random.random() < quotes:
        return b'"' + given.replace(b'"', b'""') + b'"'
    return given


def text_of(random, records):
    """The records in one of the ways in which they can stand."""
    quotes = random.choice((0, 0, 0.01, 0.5, 1))
    ends = random.choice(([b"\n"], [b"\n"], [b"\r\n"], [b"\r"], [b"\n", b"\r\n", b"\r", b"\n\n", b"\r\n\r\n", b"\r\r"]))
    lines = [b",".join(text_of_field(random, given, quotes) for given in fields) for fields in records]
    text = b"".join(line + random.choice(ends) for line in lines)
    if random.random() < 0.15:
        text = text.rstrip(b"\r\n")
    if random.random() < 0.1:
        text = random.choice((b"\xef\xbb\xbf", b"\xef\xbb\xbf", b"\xef\xbb", b"\n\r\n", b"\xef\xbb\xbf" * 2)) + text
    return text


def spoil_bytes(random, text):
    """Puts some bytes into a text, in the place of some of its own."""
    at = random.randint(0, len(text))
    hard = b"x" * random.choice((10, 1000, 100000)) if random.random() < 0.1 else random.choice(HARD_BYTES)
    return text[:at] + hard + text[at + random.randrange(3) :]


def random_file(tool, seed):
    """The file with this seed for `drive` or `replay`."""
    random = Random(f"{tool} {seed}")
    records = list(command_records(random)) if tool == "drive" else operation_records(random)
    if records and random.random() < 0.35:
        for _ in range(random.choice((1, 1, 2, 4))):
            spoil(random, records)
    text = text_of(random, records)
    if random.random() < 0.15:
        for _ in range(random.choice((1, 1, 2, 4))):
            text = spoil_bytes(random, text)
    return text
