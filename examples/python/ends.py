#!/usr/bin/env python3
"""A sender and three handlers on threads of the program's own, the second and the third after the first: ends.py [EVENTS]."""

import sys
import threading

from verified_disruptor import Ends, Events, Refusal


class Event:
    number = 0


def open_ring(size):
    return Ends(size, lambda size: Events(size, Event), upstreams=[0, 0b1, 0b1])


def main():
    events = int(sys.argv[1]) if len(sys.argv) > 1 else 20_000
    try:
        open_ring(1000)
    except Refusal as refusal:
        print("a ring of 1000 slots:", refusal)
    ends = open_ring(1024)
    sender, sums = ends.senders[0], [0] * len(ends.receivers)

    def handle(k):
        def add(event, sequence, is_last):
            sums[k] += event.number

        with ends.receivers[k] as receiver:
            receiver.run(add)

    threads = [threading.Thread(target=handle, args=[k]) for k in range(len(sums))]
    for thread in threads:
        thread.start()
    for at in range(0, events, 10):
        with sender.events(10) as claimed:
            for number, event in enumerate(claimed, at):
                event.number = number
    ends.halt()
    try:
        with sender.event() as event:
            event.number = events
    except Refusal as refusal:
        print("a claim after the halt:", refusal)
    sender.close()
    for thread in threads:
        thread.join()
    right = sums == [events * (events - 1) // 2] * len(sums)
    right = right and all(end.progress() == (events, events) for end in [sender, *ends.receivers])
    print("each handler had every event" if right else f"WRONG: {sums}")
    return 0 if right else 1


if __name__ == "__main__":
    sys.exit(main())
