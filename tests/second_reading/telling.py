"""What a page of `show` shows of each step, from the machine alone: the texts, the tables and the pictures.

It shares nothing with the program, nor with the page's data.
"""

import json
import math

from machine import shown
from showing import MOST_DRAWN, asked, page_steps, stage, string
from standing import built_order, ready, room

SETUP = {
    b"ring": "The ring: slots that are made once and used again.",
    b"limit": "How many sequences may be claimed in all.",
    b"with": "Handlers that wait for no other handler.",
    b"then": "Handlers that follow each one of the group before.",
    b"after": "The handlers that the next ones follow.",
    b"edge": "The second handler follows the first one.",
}
# What a refusal's sentence has to say, of each number but 1.
REASONS = {
    2: "The exchange is halted, for good. What is claimed may still be published.",
    3: "A claim is of at least one sequence and at most the size, a publication ends where it begins or later, and a poll has room.",
    4: "The claim goes past the limit.",
    5: "Nobody claimed this sequence, or another producer did.",
    6: "This sequence is published already, and may have been read.",
    7: "A sequence of the stretch has no event yet.",
    8: "The only producer publishes in order, and has not published an earlier sequence.",
    9: "The handler has not taken so many events.",
    10: "The handler has completed more already.",
    11: "The number is no producer's; they count from 0.",
    12: "The name is no handler's.",
    13: "The handler is retired, for good.",
    14: "A handler that is not retired follows the one to retire.",
    15: "No other handler is left.",
}
AT_FAULT = "The file is at fault here, and the run ends: disruptor check drive FILE tells what may stand here."
POLLS = {"retired": "refused: it is retired"}
LETTER = {"claimed": "c", "written": "w", "published": "p", "again": ""}
# The most stretches, values and rows that a text has; in a wide window the letters that a slot has room for, of at most 8 slots and of 16.
MOST_STRETCHES, MOST_VALUES, MOST_ROWS, MOST_TAKEN = 24, 8, 8, 16
LETTERS = {16: 6}
# A text of a larger ring stands on more than half a radian of it. Where more slots than these are drawn, it is not told which one a track ends at.
TURN, WIDE_ENOUGH, MOST_PLACED = 2 * math.pi, 0.5, 1024


def counted(n, one):
    return f"{n} {one}{'' if n == 1 else 's'}"


def listed(words):
    words = list(map(str, words))
    return " and ".join(filter(None, [", ".join(words[:-1]), *words[-1:]]))


def span(lo, hi):
    return f"{lo}" if lo == hi else f"{lo} and {hi}" if hi == lo + 1 else f"{lo} to {hi}"


def sequences(lo, hi):
    return f"sequence{'' if lo == hi else 's'} {span(lo, hi)}"


def joined(said):
    return " ".join(filter(None, dict.fromkeys(said)))


def short(name, most):
    return f"{name[: most - 6]}\u2026{name[-5:]}" if len(name) > most else name


class Stand:
    """An exchange as a page tells it."""

    def __init__(self, exchange):
        self.it, self.order = exchange, built_order(exchange.upstreams)
        self.next, self.front, self.room, self.gate = exchange.next(), exchange.front, room(exchange), exchange.gate()
        self.finals = [h for h in self.order if h not in exchange.retired and not exchange.is_followed(h)]
        self.round = self.stretches()

    def stretches(self):
        """The last round, in stretches of one producer and one stage: the first sequence, the last, the producer, the stage."""
        found = []
        for s in range(max(0, self.next - self.it.size), self.next):
            is_now = (self.it.owners[s], stage(self.it, s))
            if found and tuple(found[-1][2:]) == is_now:
                found[-1][1] = s
            else:
                found.append([s, s, *is_now])
        return found

    def ways(self):
        """These stretches, where what all final handlers completed is free again."""
        for lo, hi, producer, way in self.round:
            if way == "published" and lo < self.gate:
                yield lo, min(hi, self.gate - 1), producer, "again"
            if way != "published" or hi >= self.gate:
                yield max(lo, self.gate) if way == "published" else lo, hi, producer, way

    def ups(self, handler):
        return [h for h in self.order if h in self.it.upstreams[handler]]

    def may_take(self, handler):
        first = self.it.taken[handler]
        return span(first, first + ready(self.it, handler) - 1)

    # Why a handler or a claim waits.

    def those(self, handlers):
        return f"handler{'' if len(handlers) == 1 else 's'} {listed(h.decode() for h in handlers)}"

    def begun(self, handlers):
        return f"H{self.those(handlers)[1:]}"

    def why_waits(self, handler):
        slow = [up for up in self.ups(handler) if self.it.completed[up] <= self.it.taken[handler]]
        if not slow:
            return self.why_behind()
        done = [self.it.completed[up] for up in slow]
        done = done[:1] if len(set(done)) == 1 else done
        came = "none of the events" if done == [0] else f"only those below {listed(done)}"
        return joined([f"{self.begun([handler])} follows {self.those(slow)}, which completed {came}.", *map(self.why_slow, slow)])

    def why_slow(self, handler):
        taken, completed = self.it.taken[handler], self.it.completed[handler]
        if taken > completed:
            return f"{self.begun([handler])} took {span(completed, taken - 1)}, and has still to complete {'it' if taken == completed + 1 else 'them'}."
        if asked(self.it, handler) == "batch":
            return f"{self.begun([handler])} may take {self.may_take(handler)} now."
        return self.why_waits(handler) if asked(self.it, handler) == "gating" else ""

    def why_behind(self):
        if self.front == self.next:
            return ""
        is_written = self.front in self.it.written
        later = [span(lo, hi) for lo, hi, _, way in self.round if way == "published" and lo > self.front]
        behind = f" So {listed(later[:3])}, though published, must wait: events are handed out in order." if later else ""
        return (
            f"Producer {self.it.owners[self.front]} has {stage(self.it, self.front)} sequence {self.front},"
            f" and {'not published' if is_written else 'neither written nor published'} it yet.{behind}"
        )

    def who_may_take(self, among):
        groups = {}
        for h in among:
            if asked(self.it, h) == "batch":
                groups.setdefault(self.may_take(h), []).append(h)
        return " ".join(f"{self.begun(some)} may take {what} now." for what, some in groups.items())

    def followers(self, handler):
        some = [h for h in self.order if handler in self.it.upstreams[h]]
        return joined([self.who_may_take(some), *(self.why_waits(h) for h in some if asked(self.it, h) == "gating")])

    def why_no_room(self):
        most = f"a claim may have at most {self.room} now" if self.room else ""
        if self.it.halted:
            return "The exchange is halted."
        if self.next + self.room == self.it.limit:
            return f"{counted(self.next, 'sequence')} of at most {self.it.limit} {'is' if self.next == 1 else 'are'} claimed: {most or 'none is left'}."
        holders = [h for h in self.finals if self.it.completed[h] == self.gate]
        slots = f"the ring has {counted(self.it.size, 'slot')}: {most or 'none is free'}"
        return joined([f"{self.begun(holders)} completed {self.gate} of {self.next} claimed events, and {slots}.", *map(self.why_slow, holders)])

    # The cards.

    def handlers(self):
        waits = joined(self.why_waits(h) for h in self.order if asked(self.it, h) == "gating")
        rows = []
        for h in self.order:
            poll = asked(self.it, h)
            is_least = h in self.finals and len(self.finals) > 1 and self.it.completed[h] == self.gate
            answer = f"batch: {self.may_take(h)}" if poll == "batch" else POLLS.get(poll, poll)
            completed = f"{'least: ' if is_least else ''}{self.it.completed[h]}"
            rows.append([h.decode(), str(self.it.taken[h]), completed, answer, "yes" if h in self.finals else "no"])
        return {"handlers": rows, "waits": waits}

    def claims(self):
        rows = []
        for p in range(self.it.producers):
            own = [f"{span(lo, hi)} ({way})" for lo, hi, producer, way in self.round if producer == p and way != "published"]
            rows.append([str(p), (", ".join(own[:MOST_ROWS]) or "nothing") + (", \u2026" if len(own) > MOST_ROWS else "")])
        if self.it.halted:
            return {"claims": rows, "room": "Halted: no claim is given a sequence."}
        return {"claims": rows, "room": "A claim may have the whole ring." if self.room == self.it.size else self.why_no_room()}

    # The pictures.

    def published(self):
        if self.front:
            return [f"all below #{self.front}", "are published"]
        return ["#0 is not" if self.it.published else "nothing is", "published yet"]

    def middle(self):
        first = "claimed: " if self.it.halted else "next claim: #"
        return [f"{first}{self.next}", *self.published(), "halted" if self.it.halted else f"room for {self.room}"]

    def values(self, lo, hi):
        drawn = range(max(lo, self.next - min(self.it.size, MOST_DRAWN)), hi + 1)
        return [shown(self.it.written[s]) for s in drawn if s in self.it.written]

    def ring_told(self):
        said = []
        for lo, hi, producer, way in self.ways():
            values = self.values(lo, hi) if hi - lo < MOST_VALUES else []
            how = "completed by all, free again" if way == "again" else f"{way} by producer {producer}"
            said.append(f"{sequences(lo, hi)} {how}" + (f" ({', '.join(values)})" if values and way != "claimed" else ""))
        more = f", and {len(said) - MOST_STRETCHES} stretches more" if len(said) > MOST_STRETCHES else ""
        claimed = f"{'; '.join(said[:MOST_STRETCHES])}{more}." if said else "Nothing is claimed."
        free = f" Free slots are for {sequences(self.next, self.next + self.room - 1)}." if self.room else ""
        tracks = (
            f"Handler {h.decode()} is retired." if h in self.it.retired
            else f"Handler {h.decode()} took the events below {self.it.taken[h]} and completed those below {self.it.completed[h]}."
            for h in self.order
        )
        told = f"A ring of {counted(self.it.size, 'slot')}. {claimed} Next to be claimed: {self.next}.{free} {' '.join(self.published())}."
        return f"{told} {' '.join(tracks)}"

    def slot(self, k, touched):
        """A slot of at most 64: its way, whether the record touches it, and its texts."""
        size = self.it.size
        s = self.next - 1 - (self.next - 1 - k) % size
        way, by = next(((way, by) for lo, hi, by, way in self.ways() if lo <= s <= hi), ("free", None))
        is_free = way in ("free", "again")
        if size > 16:
            return [way, s in touched, [] if is_free else [LETTER[way]]]
        most = LETTERS.get(size, 8)
        label = f"for #{s + size}" if is_free else f"#{s} {LETTER[way]}"
        if is_free:
            lines = [] if s + size >= self.next + self.room else label.split(" ") if len(label) > most else [label]
        else:
            (value,) = self.values(s, s) or [""]
            value = f"{value[: most - 1]}\u2026" if len(value) > most else value
            lines = list(filter(None, [f"#{s}" if len(label) > most else label, f"by {by}" if self.it.producers > 1 else "", value]))
        return [way, s >= 0 and s in touched, lines]

    def slots(self, touched):
        size, one = self.it.size, TURN / self.it.size
        if size <= MOST_DRAWN:
            return [self.slot(k, touched) for k in range(size)]
        found = []
        for lo, hi, _, way in self.ways():
            # (a whole ring is drawn in two halves)
            if hi - lo + 1 == size:
                found.append([way, False, []])
            has_text = (hi - lo + 1) * one > WIDE_ENOUGH and way != "again"
            found.append([way, False, [f"{LETTER[way]} {lo}\u2013{hi}"] if has_text else []])
        return found

    def pictures(self, touched):
        size, many = self.it.size, len(self.order)
        free = f"for {self.next}\u2013{self.next + self.room - 1}" if size > 16 and self.room * TURN / size > WIDE_ENOUGH else ""
        tracks = []
        for h in self.order:
            taken, completed = self.it.taken[h], self.it.completed[h]
            places = [completed % size if taken > completed else None, taken % size] if size <= MOST_PLACED else [None, None]
            tracks.append(None if h in self.it.retired else [short(h.decode(), 14 if many <= 6 else 9), *places])
        says = []
        for h in self.order:
            stands = " and is retired" if h in self.it.retired else " and frees slots" if h in self.finals else ""
            says.append(f"Handler {h.decode()} follows {listed(up.decode() for up in self.ups(h)) or 'the producers'}{stands}.")
        boxes = [[short(h.decode(), 14), h in self.finals, h in self.it.retired] for h in self.order]
        return {
            "slots": self.slots(touched), "free": free, "middle": self.middle(), "tracks": tracks,
            "ring": self.ring_told(), "boxes": boxes, "graph": " ".join(says),
        }


def touched_by(fields, reply):
    """The sequences that a command was about."""
    words = (reply or "").split()
    if words[:1] == ["claimed"]:
        return range(int(words[1]), int(words[2]) + 1)
    if words[:1] == ["batch"]:
        return range(int(words[1]), int(words[1]) + len(words) - 3)
    if words[:1] == ["written"]:
        return range(int(fields[2]), int(fields[2]) + 1)
    return range(int(fields[2]), int(fields[3]) + 1) if words[:1] == ["published"] else ()


def meant(text):
    """What the fields of a command mean; these are what the page has of them, parted by commas."""
    word, *f = text.split(",")
    of = {"ring": lambda: f"{numbered(f[0], 'slot')}, {numbered(f[2] if len(f) > 2 else '1', 'producer')}.",
          "claim": lambda: f"Claim by producer {f[0]} of {numbered(f[1], 'sequence')}.",
          "write": lambda: f"Write by producer {f[0]} in sequence {f[1]}: the event {':'.join(f[2:])}.",
          "publish": lambda: f"Publication by producer {f[0]} of " + (f"sequence {f[1]}." if f[1] == f[2] else f"sequences {f[1]} to {f[2]}."),
          "poll": lambda: f"Poll by handler {f[0]} for at most {numbered(f[1], 'event')}.",
          "complete": lambda: f"Completion by handler {f[0]} of the sequences below {f[1]}.",
          "retire": lambda: f"Retirement of handler {f[0]}."}
    return of[word]() if word in of else ""


def numbered(digits, one):
    return f"{digits} {one}{'' if digits.isdecimal() and int(digits) == 1 else 's'}"


def why_batch(stand, handler, words):
    events = " ".join(words[3:][:MOST_TAKEN]) + (" \u2026" if len(words) > 3 + MOST_TAKEN else "")
    lo, hi = int(words[1]), stand.it.taken[handler] - 1
    end = "more: more was available than the poll had room for." if words[2] == "more" else "end: no more was available."
    return f"{stand.begun([handler])} took {sequences(lo, hi)}, in order: the events {events}. {end}"


def why(stand, fields, reply):
    """Why a command was answered so."""
    words, h = reply.split(), fields[1] if len(fields) > 1 else None
    if words[0] == "refused":
        return f"{'No room. ' + stand.why_no_room() if words[1] == '1' else REASONS[int(words[1])]} Nothing has changed."
    if words[0] == "claimed":
        lo, hi = map(int, words[1:])
        return f"Producer {fields[1].decode()} owns {sequences(lo, hi)} now, and {'its slot' if lo == hi else 'their slots'}."
    if words[0] == "published" and stand.front > int(fields[3]):
        return f"All below sequence {stand.front} are published. {stand.who_may_take(stand.order)}"
    if words[0] == "completed":
        freed = f"The slots of the sequences below {stand.gate} are free again." if stand.gate else ""
        return freed if h in stand.finals else stand.followers(h)
    return {
        "written": lambda: "The event is in its slot. Handlers see it once it is published, and all before it are.",
        "published": stand.why_behind,
        "batch": lambda: why_batch(stand, h, words),
        "gating": lambda: f"There is more for {stand.those([h])}, but not yet. {stand.why_waits(h)}",
        "idle": lambda: "Nothing new is there.",
        "drained": lambda: f"The exchange is halted, and {stand.those([h])} took all there will ever be.",
        "halting": lambda: "No claim succeeds from now on. What is claimed may still be published, and is still handed out.",
        "retired": lambda: f"{stand.begun([h])} takes no more events, and no claim waits for it, but for {stand.those(stand.finals)}.",
    }[words[0]]()


def step_shown(it):
    """What a page shows of a step, but for the number of the last record."""
    text = json.loads(string(b",".join(it.fields))) if it.fields is not None else ""
    line = it.reply if it.reply is not None else it.fault
    head = text.removesuffix("\n").replace("\n", "\\x0a")
    told = {"record": it.record, "head": head + (f" \u2192 {line}" if line else ""), "line": [head, line or ""]}
    if it.fault or not it.exchange:
        return {**told, "asks": "" if it.fault else meant(text), "why": AT_FAULT if it.fault else SETUP[it.fields[0]]}
    stand = Stand(it.exchange)
    opens = f"The exchange opens: {counted(it.exchange.size, 'slot')}, {counted(it.exchange.producers, 'producer')}, {counted(len(stand.order), 'handler')}."
    said = {"asks": meant(text), "why": opens if it.reply is None else why(stand, it.fields, it.reply)}
    return {**told, **said, **stand.handlers(), **stand.claims(), **stand.pictures(touched_by(it.fields, it.reply))}


def steps_shown(text, first=1, steps=2000):
    """What the page of this text shows of each of its steps; of a file that ends in its setup one more tells the fault."""
    found, last = [], 0
    for it in page_steps(text, first, steps):
        last = it.record
        if it.fields is None and it.fault:
            it = it._replace(record=last + 1)
        if it.fields is not None or it.fault:
            found.append(step_shown(it))
    return [{**it, "where": f"record {it['record']} of {last}"} for it in found]
