"""The report of a replay by lock: that of some order of the events that keeps each producer's."""

from collections import defaultdict, deque

from reading import Fault, Outcome, operations_of, replay, report


def merged_like(did, text):
    """What a replay by lock is to do, in the order that its own journal tells, if that is one."""
    try:
        operations = operations_of(text)
    except Fault:
        return replay(text)
    waiting = defaultdict(deque)
    for operation in operations:
        waiting[operation[0]].append(operation)
    order = []
    for producer in producers_of(did.out):
        if waiting[producer]:
            order.append(waiting[producer].popleft())
    for left in waiting.values():
        order += left
    return Outcome(0, report(order), b"")


def producers_of(out):
    """The producers of a report's journal, in its order."""
    for line in out.decode(errors="replace").splitlines()[1:]:
        if line.startswith("replica "):
            return
        producer = line.split(",")[1:2]
        if producer and producer[0].isdigit():
            yield int(producer[0])
