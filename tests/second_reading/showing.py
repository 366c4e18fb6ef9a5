"""The data of the page that `show` writes, as page/README.md says it.

It is written from the docs, and shares nothing with the program.
"""

from collections import namedtuple

from machine import shown
from reading import Fault, Setup, answer, records, ring_of
from standing import built_order, ready, room

# A record of a page with what came of it; the last has no fields: the last record's number, and the fault of a file that ends in its setup.
Step = namedtuple("Step", "record fields reply fault exchange")

MOST_DRAWN = 64
# What stands for a byte within a string of the data; else it stands as it is, or as `\\xNN`.
ESCAPES = {ord('"'): '\\"', ord("\\"): "\\\\x5c", ord("<"): "\\u003c", ord("\n"): "\\n"}


def asked(exchange, handler):
    """What a poll is answered, in a word."""
    if handler in exchange.retired:
        return "retired"
    if ready(exchange, handler):
        return "batch"
    if exchange.halted and exchange.taken[handler] == exchange.next():
        return "drained"
    return "gating" if exchange.taken[handler] < exchange.cursor() else "idle"


def string(bytes_):
    return '"' + "".join(ESCAPES.get(it) or (chr(it) if 32 <= it <= 126 else f"\\\\x{it:02x}") for it in bytes_) + '"'


def truth(is_so):
    return "true" if is_so else "false"


def handler_object(exchange, it):
    gates = it not in exchange.retired and not exchange.is_followed(it)
    holds = gates and exchange.completed[it] == exchange.gate()
    return (
        f'{{"taken":{exchange.taken[it]},"completed":{exchange.completed[it]},"ready":{ready(exchange, it)},"poll":"{asked(exchange, it)}"'
        f',"retired":{truth(it in exchange.retired)},"gates":{truth(gates)},"holds":{truth(holds)}}}'
    )


def stage(exchange, s):
    return "published" if s in exchange.published else "written" if s in exchange.written else "claimed"


def round_text(exchange):
    first = max(0, exchange.next() - exchange.size)
    stretches, before = [], None
    for s in range(first, exchange.next()):
        is_now = (exchange.owners[s], stage(exchange, s))
        if is_now != before:
            stretches.append(f'[{s},{is_now[0]},"{is_now[1]}"]')
        before = is_now
    drawn = range(max(0, exchange.next() - min(exchange.size, MOST_DRAWN)), exchange.next())
    events = "".join(f" {s}={shown(exchange.written[s])}" for s in drawn if s in exchange.written)
    return f',"round":[{",".join(stretches)}],"events":"{events}"'


def state_text(exchange):
    handlers = ",".join(handler_object(exchange, it) for it in built_order(exchange.upstreams))
    return (
        f',"next":{exchange.next()},"front":{exchange.front},"room":{room(exchange)},"halted":{truth(exchange.halted)}'
        f',"handlers":[{handlers}]{round_text(exchange)}'
    )


def exchange_text(exchange):
    order = built_order(exchange.upstreams)
    handlers = ",".join(
        f'{{"name":{string(it)},"upstreams":[{",".join(map(str, sorted(order.index(up) for up in set(exchange.upstreams[it]))))}]}}' for it in order
    )
    return (
        f',"exchange":{{"size":{exchange.size},"producers":{exchange.producers},"single":{truth(exchange.is_single)}'
        f',"limit":"{exchange.limit}","handlers":[{handlers}]}}'
    )


def page_steps(text, first=1, steps=2000):
    """Gives each step of a page, with the exchange as it stands after it, until the next is asked for."""
    setup, exchange, k = None, None, 0
    for k, fields in enumerate(records(text), 1):
        reply = fault = None
        try:
            if exchange:
                reply = answer(exchange, fields)
            elif setup:
                exchange = setup.take(fields)
            else:
                setup = Setup(ring_of(fields))
        except Fault as cause:
            fault = f"record {k}: {cause}"
        if reply is None or first <= k < first + steps:
            yield Step(k, fields, reply, fault, exchange)
        if fault:
            break
    else:
        fault = None if exchange else f"record {k + 1}: {'no start' if setup else 'no ring'}"
        yield Step(k, None, None, fault, exchange)
        return
    yield Step(k, None, None, None, exchange)


def object_of(it):
    """The object of a step; of a fault, and of a record of the setup but its last, it has no state."""
    if it.fields is None:
        return f'{{"last":{it.record}' + (f',"fault":"{it.fault}"' if it.fault else "") + "}\n"
    head = f'{{"record":{it.record},"text":{string(b",".join(it.fields))}'
    if it.fault:
        return f'{head},"fault":"{it.fault}"}},\n'
    if it.reply is not None:
        reply = string(it.reply.encode() + b"\n")
        return f'{head},"reply":{reply}{state_text(it.exchange)}}},\n'
    return f"{head}{exchange_text(it.exchange) + state_text(it.exchange) if it.exchange else ''}}},\n"


def page_data(text, first=1, steps=2000):
    """The data of the page that `disruptor show --from FIRST --steps STEPS` writes of this text."""
    return f'{{"from":{first},"steps":{steps},"records":[\n{"".join(map(object_of, page_steps(text, first, steps)))}]}}'
