#!/usr/bin/env python3
"""Two feeds, a thread each, send records of two numbers; a handler prices them and the next one adds: records.py [RECORDS]."""

import array
import sys
import threading

from verified_disruptor import Disruptor

CLAIM = 64


def main():
    records = int(sys.argv[1]) if len(sys.argv) > 1 else 64_000
    total = []

    def price(views, first):
        # (a batch that goes round the end of the slots is two views; numpy.asarray(view) takes one as it lies)
        for view in views:
            for k in range(0, len(view), 2):
                view[k + 1] = 3 * view[k]

    def add(views, first):
        total.append(sum(sum(view[1::2]) for view in views))

    disruptor = Disruptor(1024, record="QQ")
    disruptor.handle_batches("price", price, changes=True).after("price").handle_batches("add", add)

    def feed(sender):
        for at in range(0, records, CLAIM):
            sender.send(array.array("Q", [it for number in range(at, at + CLAIM) for it in (number, 0)]))

    with disruptor.senders(2) as senders:
        feeds = [threading.Thread(target=feed, args=[sender]) for sender in senders]
        for it in feeds:
            it.start()
        for it in feeds:
            it.join()
    right = sum(total) == 2 * 3 * sum(range(records))
    print("each handler had every record" if right else f"WRONG: {sum(total)}")
    return 0 if right else 1


if __name__ == "__main__":
    sys.exit(main())
