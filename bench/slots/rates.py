#!/usr/bin/env python3
"""Events a second over a ring of slots from Python, each end on a thread of its own, measured as bench/c/rates.c does: records of two
numbers, copied from an array a claim, and added up a batch.

    bench/slots/rates.py TOPOLOGY SIZE SECONDS ROUNDS
"""

import array
import re
import sys
import threading
import time

from verified_disruptor import Ends, Records

STRETCH = 1024
SHAPES = {"unicast": [0], "pipeline": [0, 1, 2], "multicast": [0, 0, 0], "diamond": [0, 0, 3]}


def send(sender, claim, seconds):
    """Sends until the time is over. Of each event the first number is 1."""
    events, begun = array.array("Q", [1, 0] * claim), time.monotonic()
    while time.monotonic() - begun < seconds:
        for _ in range(max(STRETCH // claim, 1)):
            sender.send(events)


def play(senders, shape, claim, size, seconds):
    """One round over a ring of its own, from the first claim until the last handler has had all."""
    ends = Ends(size, lambda size: Records(size, "QQ"), SHAPES[shape], senders)
    sums = [0] * len(ends.receivers)

    def handle(k):
        def add(views, first):
            sums[k] += sum(sum(view) for view in views)

        ends.receivers[k].run_batches(add)

    handlers = [threading.Thread(target=handle, args=[k]) for k in range(len(sums))]
    sending = [threading.Thread(target=send, args=[it, claim, seconds]) for it in ends.senders]
    begun = time.monotonic()
    for thread in handlers + sending:
        thread.start()
    for thread in sending:
        thread.join()
    if senders:
        ends.halt()
    else:
        ends.senders[0].close()
    for thread in handlers:
        thread.join()
    events = sum(it.published for it in ends.senders)
    if sums != [events] * len(sums):
        sys.exit("wrong sum")
    return events / (time.monotonic() - begun)


def main():
    if len(sys.argv) != 5:
        sys.exit("usage: bench/slots/rates.py TOPOLOGY SIZE SECONDS ROUNDS")
    senders, shape, claim = re.fullmatch(r"(?:senders(\d+)-)?(\w+?)(?:-b(\d+))?", sys.argv[1]).groups()
    size = int(sys.argv[2])
    words = int(senders) if senders else None, shape, min(int(claim or 1), size), size, float(sys.argv[3])
    rates = sorted(play(*words) for _ in range(int(sys.argv[4])))
    print(f"python-slots {sys.argv[1]} {sys.argv[2]} {rates[len(rates) // 2]:.0f}")


if __name__ == "__main__":
    main()
