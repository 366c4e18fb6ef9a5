"""The calls of libdisruptor.so by ctypes, for `over_c.py`: each kind of ring, one call of the library for one call here."""

import ctypes
import functools

BATCH, GATING, IDLE, DRAINED = range(4)
MAX_LIMIT = 1 << 62


class Event(ctypes.Structure):
    _fields_ = [("first", ctypes.c_uint64), ("second", ctypes.c_uint64)]


class Offer(ctypes.Structure):
    _fields_ = [("kind", ctypes.c_uint32), ("end", ctypes.c_uint32), ("first", ctypes.c_uint64), ("count", ctypes.c_uint64)]


class Counts(ctypes.Structure):
    _fields_ = [("begun", ctypes.c_uint64), ("done", ctypes.c_uint64)]


class Handle(ctypes.Structure):
    _fields_ = [("at", ctypes.c_void_p), ("state", ctypes.c_uint64), ("rest", ctypes.c_uint64 * 14)]


class Refusal(Exception):
    """A call was refused; `number` says why."""

    def __init__(self, library, number):
        text = ctypes.create_string_buffer(64)
        length = library.disruptor_name_at(number, text, 64)
        super().__init__(text.raw[:length].decode())
        self.number = number


@functools.lru_cache(None)
def load(path):
    """Returns the library, with the types of its calls."""
    library = ctypes.CDLL(path)
    handle, number, size = ctypes.POINTER(Handle), ctypes.c_uint64, ctypes.c_size_t
    # (a pointer comes with how many things lie there)
    for name, *types in (
        ("open", number, number, ctypes.POINTER(number), size, size, handle, size, handle, size, size, handle, size),
        ("open_several", number, number, ctypes.POINTER(number), size, size, handle, size, size, handle, size, size, handle, size),
        ("open_bytes", number, number, size, ctypes.POINTER(number), size, size, handle, size, handle, size, size, handle, size),
        ("claim", handle, size, number, ctypes.POINTER(number), size),
        ("write", handle, size, number, ctypes.POINTER(Event), size),
        ("write_bytes", handle, size, number, ctypes.c_char_p, size, size),
        ("publish", handle, size, number, number),
        ("publish_slots", handle, size, number, number),
        ("close", handle, size),
        ("poll", handle, size, ctypes.POINTER(Event), size, size, ctypes.POINTER(Offer), size),
        ("poll_bytes", handle, size, number, ctypes.POINTER(Offer), size),
        ("poll_slots", handle, size, number, ctypes.POINTER(Offer), size),
        ("read_bytes", handle, size, number, ctypes.c_char_p, size, size),
        ("complete", handle, size, number),
        ("halt", handle, size),
        ("cursor", handle, size, ctypes.POINTER(number), size),
        ("completed", handle, size, size, ctypes.POINTER(number), size),
        ("progress", handle, size, ctypes.POINTER(Counts), size),
    ):
        call = getattr(library, f"disruptor_{name}_at")
        call.argtypes, call.restype = types, ctypes.c_uint32
    library.disruptor_free_at.argtypes, library.disruptor_free_at.restype = [handle, size], None
    library.disruptor_name_at.argtypes, library.disruptor_name_at.restype = [ctypes.c_uint32, ctypes.c_char_p, size], size
    return library


class End:
    """An end of a ring. One thread at a time uses it."""

    def __init__(self, library, handle, owner=None):
        # (`owner` keeps the array alive in which the handle lies)
        self.library, self.handle, self.owner = library, handle, owner

    def call(self, name, *arguments):
        number = getattr(self.library, f"disruptor_{name}_at")(self.handle, 1, *arguments)
        if number:
            raise Refusal(self.library, number)

    def progress(self):
        """Returns what the sender of one claimed and published, or what a receiver took and completed."""
        counts = Counts()
        self.call("progress", ctypes.byref(counts), 1)
        return counts.begun, counts.done

    def free(self):
        self.library.disruptor_free_at(self.handle, 1)

    def __del__(self):
        self.free()


class Sender(End):
    def claim(self, n):
        """Claims n sequences, and returns the first."""
        lo = ctypes.c_uint64()
        self.call("claim", n, ctypes.byref(lo), 1)
        return lo.value

    def write(self, sequence, first, second=0):
        self.call("write", sequence, ctypes.byref(Event(first, second)), 1)

    def publish(self, lo, hi):
        self.call("publish", lo, hi)

    def publish_slots(self, lo, hi):
        self.call("publish_slots", lo, hi)

    def close(self):
        self.call("close")


class SenderOfBytes(Sender):
    """Its events are `bytes` of the ring's length."""

    def write(self, sequence, event):
        self.call("write_bytes", sequence, event, len(event), len(event))


class Receiver(End):
    def poll(self, events):
        """Takes events into an array of `Event`, and returns the offer."""
        offer = Offer()
        self.call("poll", events, len(events), len(events), ctypes.byref(offer), 1)
        return offer

    def poll_slots(self, room):
        """Takes the next events of a ring of slots, and returns the offer."""
        offer = Offer()
        self.call("poll_slots", room, ctypes.byref(offer), 1)
        return offer

    def complete(self, upto):
        self.call("complete", upto)


class ReceiverOfBytes(Receiver):
    """The events that it took and did not complete can be read."""

    def __init__(self, library, handle, owner, length):
        super().__init__(library, handle, owner)
        self.length = length

    def poll(self, room):
        """Takes the next events, and returns the offer."""
        offer = Offer()
        self.call("poll_bytes", room, ctypes.byref(offer), 1)
        return offer

    def read(self, sequence):
        event = ctypes.create_string_buffer(self.length)
        self.call("read_bytes", sequence, event, self.length, self.length)
        return event.raw


class Halter(End):
    def halt(self):
        self.call("halt")

    def cursor(self):
        """Returns how many events the one sender published, or how many sequences several claimed."""
        count = ctypes.c_uint64()
        self.call("cursor", ctypes.byref(count), 1)
        return count.value

    def completed(self, handler):
        """Returns how many events a handler completed."""
        count = ctypes.c_uint64()
        self.call("completed", handler, ctypes.byref(count), 1)
        return count.value


def open(path, size, upstreams, limit=MAX_LIMIT):
    """Opens a ring, and returns its sender, its receivers and its halter."""
    library = load(path)
    sender, receivers, halter = Handle(), (Handle * len(upstreams))(), Handle()
    masks = (ctypes.c_uint64 * len(upstreams))(*upstreams)
    count = len(upstreams)
    number = library.disruptor_open_at(
        size, limit, masks, count, count, ctypes.byref(sender), 1, receivers, count, count, ctypes.byref(halter), 1
    )
    if number:
        raise Refusal(library, number)
    own = [Receiver(library, ctypes.pointer(receivers[k]), receivers) for k in range(len(receivers))]
    return Sender(library, ctypes.pointer(sender)), own, Halter(library, ctypes.pointer(halter))


def open_several(path, size, upstreams, senders, limit=MAX_LIMIT):
    """Opens a ring of several senders, and returns them, its receivers and its halter."""
    library, count = load(path), len(upstreams)
    sending, receiving, halter = (Handle * senders)(), (Handle * count)(), Handle()
    masks = (ctypes.c_uint64 * count)(*upstreams)
    number = library.disruptor_open_several_at(
        size, limit, masks, count, count, sending, senders, senders, receiving, count, count, ctypes.byref(halter), 1
    )
    if number:
        raise Refusal(library, number)
    own = [Receiver(library, ctypes.pointer(receiving[k]), receiving) for k in range(count)]
    return [Sender(library, ctypes.pointer(sending[k]), sending) for k in range(senders)], own, Halter(library, ctypes.pointer(halter))


def open_bytes(path, size, length, upstreams, limit=MAX_LIMIT):
    """Opens a ring whose events have `length` bytes each, and returns its sender, its receivers and its halter."""
    library, count = load(path), len(upstreams)
    sender, receiving, halter = Handle(), (Handle * count)(), Handle()
    masks = (ctypes.c_uint64 * count)(*upstreams)
    number = library.disruptor_open_bytes_at(
        size, limit, length, masks, count, count, ctypes.byref(sender), 1, receiving, count, count, ctypes.byref(halter), 1
    )
    if number:
        raise Refusal(library, number)
    own = [ReceiverOfBytes(library, ctypes.pointer(receiving[k]), receiving, length) for k in range(count)]
    return SenderOfBytes(library, ctypes.pointer(sender)), own, Halter(library, ctypes.pointer(halter))
