"""How an exchange stands, as docs/FORMATS.md says it: the lines of `drive --state`.

It is written from the docs, and shares nothing with the program.
"""

from reading import drive


def built_order(upstreams):
    """The handlers: always the first declared one without a place all of whose upstreams have theirs."""
    order = []
    while len(order) < len(upstreams):
        order.append(next(it for it in upstreams if it not in order and all(up in order for up in upstreams[it])))
    return order


def room(exchange):
    """The most sequences that a claim is given."""
    if exchange.halted:
        return 0
    return min(exchange.limit, exchange.size + exchange.gate()) - exchange.next()


def ready(exchange, handler):
    """How many events a poll gives a handler that asks for all."""
    return 0 if handler in exchange.retired else exchange.available(handler) - exchange.taken[handler]


def state_line(exchange):
    words = ["state next", exchange.next(), "front", exchange.front, "room", room(exchange)]
    for it in built_order(exchange.upstreams):
        words += [it.decode(), ready(exchange, it), exchange.completed[it]]
    return " ".join(map(str, words)) + "\n"


def drive_states(text):
    """What `disruptor drive --state` does with a file of this text."""
    return drive(text, state_line)
