"""A verified LMAX Disruptor: events of any class, in place, through a graph of handlers by their names, a thread each.

    disruptor = Disruptor(1024, Order)
    disruptor.handle("journal", journal).after("journal").handle("fees", fees, changes=True)
    with disruptor.sender() as sender:
        with sender.event() as order:
            order.price = 3
"""

from ._ends import Broken, Ends, Receiver, Sender
from ._graph import Disruptor, HandlerFailed
from ._library import MAX_LIMIT, Reason, Refusal
from ._slots import Events, Records

__all__ = ["Broken", "Disruptor", "Ends", "Events", "HandlerFailed", "MAX_LIMIT", "Reason", "Receiver", "Records", "Refusal", "Sender"]
