"""What no type says of a ring of slots in Python, and the example of the README."""

import array
import os
import re
import struct
import subprocess
import sys
import threading
import time
import unittest
import unittest.mock

from verified_disruptor import Broken, Disruptor, Ends, Events, HandlerFailed, Reason, Records, Refusal

README = os.path.join(os.path.dirname(os.path.dirname(os.path.abspath(__file__))), "README.md")


class Event:
    number = 0


def ends_of(size, upstreams, senders=None):
    return Ends(size, lambda size: Events(size, Event), upstreams, senders)


def send(sender, numbers):
    with sender.events(len(numbers)) as events:
        for event, number in zip(events, numbers):
            event.number = number


class Ring(unittest.TestCase):
    def refused(self, reason, call, *arguments):
        with self.assertRaises(Refusal) as raised:
            call(*arguments)
        self.assertEqual(raised.exception.reason, reason)

    def test_events_come_round_the_end_of_the_slots(self):
        ends, seen = ends_of(4, [0]), []
        sender, receiver = ends.senders[0], ends.receivers[0]
        send(sender, [0, 1, 2])
        self.refused(Reason.BAD_COUNT, sender.events(5).__enter__)
        sender_thread = threading.Thread(target=send, args=(sender, [3, 4, 5]))
        sender_thread.start()  # (it waits for room)

        def see(event, sequence, is_last):
            self.assertEqual(event.number, sequence)
            seen.append(event.number)
            if sequence == 5:
                sender.close()

        receiver.run(see, room=2)
        sender_thread.join()
        self.assertEqual(seen, [0, 1, 2, 3, 4, 5])
        self.assertEqual((sender.progress(), receiver.progress()), ((6, 6), (6, 6)))
        self.refused(Reason.HALTED, sender.event().__enter__)

    def test_a_batch_goes_on_after_the_event_at_which_a_handler_raised(self):
        ends, seen = ends_of(16, [0, 1]), []
        send(ends.senders[0], range(10))
        ends.senders[0].close()

        def handle(event, sequence, is_last):
            if sequence == 3:
                raise ValueError("the fourth event")
            seen.append(event.number)

        with self.assertRaises(ValueError):
            ends.receivers[0].run(handle)
        self.assertEqual(ends.receivers[0].progress(), (10, 3))
        ends.receivers[0].run(handle)
        self.assertEqual(seen, [0, 1, 2, 4, 5, 6, 7, 8, 9])
        ends.receivers[1].run(lambda event, sequence, is_last: seen.append(sequence))
        self.assertEqual(seen[9:], list(range(10)))

    def test_what_is_in_hand_after_a_handler_raised_comes_by_the_room_too(self):
        ends, seen = ends_of(16, [0]), []
        receiver = ends.receivers[0]
        send(ends.senders[0], range(10))
        ends.senders[0].close()

        def handle(event, sequence, is_last):
            if sequence == 2:
                raise ValueError("the third event")
            seen.append((event.number, is_last))

        with self.assertRaises(ValueError):
            receiver.receive(handle, 0)
        for no_room in (0, -1):
            self.refused(Reason.BAD_COUNT, receiver.receive, handle, 0, no_room)
        self.assertEqual((receiver.completed, receiver.receive(handle, 0, room=2), receiver.completed), (2, 2, 5))
        self.assertEqual(seen, [(0, False), (1, False), (3, False), (4, True)])
        batches = []
        receiver.run_batches(lambda events, first: batches.append((first, len(events))), room=3)
        self.assertEqual(batches, [(5, 3), (8, 2)])

    def test_a_handler_that_receives_by_its_own_end_is_refused(self):
        ends, seen = ends_of(4, [0]), []
        receiver = ends.receivers[0]
        send(ends.senders[0], range(3))

        def handle(event, sequence, is_last):
            seen.append((event.number, sequence))
            with self.assertRaisesRegex(RuntimeError, "a handler receives by its own end"):
                receiver.receive(handle, 0)

        def handle_batch(events, first):
            seen.append((len(events), first))
            receiver.run_batches(handle_batch)

        self.assertEqual((receiver.receive(handle, 0), receiver.progress()), (3, (3, 3)))
        send(ends.senders[0], [3, 4])
        with self.assertRaisesRegex(RuntimeError, "a handler receives by its own end"):
            receiver.run_batches(handle_batch)
        send(ends.senders[0], [5])
        self.assertEqual((receiver.receive(handle, 0), receiver.progress()), (1, (6, 6)))
        self.assertEqual(seen, [(0, 0), (1, 1), (2, 2), (2, 3), (5, 5)])

    def test_a_filling_that_raises_leaves_the_ring_in_order(self):
        ends, seen = ends_of(4, [0]), []
        with self.assertRaises(ValueError), ends.senders[0].event():
            raise ValueError
        send(ends.senders[0], [6])
        ends.senders[0].close()
        ends.receivers[0].run(lambda event, sequence, is_last: seen.append(event.number))
        self.assertEqual(seen, [0, 6])

    def test_those_who_follow_one_that_gave_up_end(self):
        ends = ends_of(4, [0, 1])
        send(ends.senders[0], [1])
        ends.give_up()
        with self.assertRaises(Broken):
            ends.receivers[1].run(print)
        self.refused(Reason.HALTED, ends.senders[0].event().__enter__)
        # (the sender closed the ring then)
        ends.receivers[0].run(lambda event, sequence, is_last: None)
        self.assertTrue(ends.receivers[0].is_drained)

    def test_a_receiver_whose_with_ends_before_it_is_drained_halts_the_ring(self):
        ends = ends_of(4, [0, 1])
        send(ends.senders[0], range(4))

        def fail(event, sequence, is_last):
            if sequence == 2:
                raise ValueError("the third event")

        with self.assertRaises(ValueError), ends.receivers[0] as receiver:
            receiver.run(fail)
        self.refused(Reason.HALTED, ends.senders[0].event(timeout=1).__enter__)
        seen = []
        with self.assertRaises(Broken), ends.receivers[1] as receiver:
            receiver.run(lambda event, sequence, is_last: seen.append(sequence))
        self.assertEqual(seen, [0, 1])
        drained = ends_of(4, [0])
        with drained.receivers[0] as receiver:
            drained.senders[0].close()
            receiver.run(fail)
        self.assertEqual(drained.cut(1), ends_of(4, [0]).cut(1))

    def test_graphs_are_refused_by_name(self):
        def one():
            return Disruptor(4, Event).handle("a", print)

        for word, build in {
            "no handler before has the name b": lambda: one().after("b"),
            "two handlers have the name a": lambda: one().handle("a", print),
            "b would change events that another handler reads at the same time": lambda: one()
            .handle("b", print, changes=True)
            .sender()
            .__enter__(),
        }.items():
            with self.assertRaisesRegex(ValueError, word):
                build()
        for size in (0, -1, 5, 1 << 17, 1 << 60):
            self.refused(Reason.BAD_SIZE, Disruptor, size, Event)
        self.assertRaises(ValueError, lambda: Disruptor(4, record="QI"))
        self.refused(Reason.NO_HANDLERS, Disruptor(4, Event).sender().__enter__)
        self.refused(Reason.BAD_PRODUCERS, one().senders(17).__enter__)

    def test_a_handler_that_raises_halts_the_ring_and_is_named(self):
        seen = []

        def first(event, sequence, is_last):
            if event.number == 10:
                raise ValueError("too large")

        disruptor = Disruptor(4, Event).handle("first", first).and_then()
        disruptor.handle("second", lambda event, sequence, is_last: seen.append(event.number))
        with self.assertRaises(HandlerFailed) as raised, disruptor.sender() as sender:
            for number in range(100):
                send(sender, [number])
        self.assertEqual(raised.exception.name, "first")
        self.assertEqual(str(raised.exception.__cause__), "too large")
        self.assertTrue(all(number < 10 for number in seen))

    def test_what_a_body_raises_shows_the_handlers_that_failed_too(self):
        both = threading.Barrier(2)

        def fail(event, sequence, is_last):
            both.wait()
            raise ValueError("too large")

        disruptor = Disruptor(4, Event).handle("one", fail).handle("other", fail)
        for raised in (KeyboardInterrupt(), ZeroDivisionError()):
            with self.assertRaises(type(raised)), disruptor.sender() as sender:
                send(sender, [1])
                raise raised
            failure = raised.__context__
            self.assertIsInstance(failure, HandlerFailed)
            self.assertEqual({failure.name, *(it.name for it in failure.others)}, {"one", "other"})
            self.assertRegex(str(failure), r"the handler \w+ raised, then \w+: ValueError\('too large'\)$")
            self.assertEqual([str(it.__cause__) for it in (failure, *failure.others)], ["too large"] * 2)
        # (at the end of what an exception came of)
        with self.assertRaises(KeyError) as caught, disruptor.sender() as sender:
            send(sender, [1])
            try:
                raise ZeroDivisionError
            except ZeroDivisionError as error:
                raise KeyError from error
        self.assertIsInstance(caught.exception.__cause__.__context__, HandlerFailed)

    def test_who_follows_one_that_fails_has_what_it_completed_and_others_have_all(self):
        claimed, follows, counts = threading.Event(), [], []

        # (the first two events are handled only once the third is claimed, and that one is published only once the second failed)
        def fail(event, sequence, is_last):
            claimed.wait()
            if sequence == 1:
                raise ValueError

        disruptor = Disruptor(4, Event).handle("fails", fail).handle("counts", lambda *shown: counts.append(shown[1]))
        disruptor.after("fails").handle("follows", lambda *shown: follows.append(shown[1]))
        with self.assertRaises(HandlerFailed) as raised, disruptor.sender() as sender:
            send(sender, [0, 1])
            with sender.event():
                claimed.set()
                time.sleep(0.03)
        self.assertEqual((raised.exception.name, follows, counts), ("fails", [0], [0, 1, 2]))

    # (one that it follows fails while the other one is on its way)
    def test_who_follows_two_has_what_both_completed_up_to_the_cut(self):
        follows, slow = [], []

        def fail(event, sequence, is_last):
            if sequence == 500:
                raise ValueError

        def wait(event, sequence, is_last):
            if sequence == 100:
                time.sleep(0.1)
            slow.append(sequence)

        disruptor = Disruptor(1024, Event).handle("fails", fail).handle("slow", wait).and_then()
        disruptor.handle("follows", lambda *shown: follows.append(shown[1]))
        with self.assertRaises(HandlerFailed) as raised, disruptor.sender() as sender:
            send(sender, range(800))
        self.assertEqual((raised.exception.name, len(follows), len(slow)), ("fails", 500, 800))

    def test_a_sender_has_one_claim_at_a_time(self):
        seen = []
        disruptor = Disruptor(4, Event).handle("sees", lambda event, sequence, is_last: seen.append(sequence))
        with disruptor.sender() as sender:
            with sender.event():
                self.refused(Reason.OPEN_CLAIM, sender.event().__enter__)
            send(sender, [1])
            # (a claim whose end an interrupt took away is published when the ring ends, and no call makes another one)
            sender.events(2).__enter__()
            self.assertEqual([it for it in dir(sender) if "claim" in it and it[0] != "_"], ["publish_claim"])
            threading.Thread(target=sender.halt).start()
        self.assertEqual((seen, disruptor.completed("sees")), ([0, 1, 2, 3], 4))

    def test_a_ring_that_ends_leaves_the_claim_of_another_thread_to_it(self):
        filling, seen = threading.Event(), []

        def fill(sender):
            with sender.event() as event:
                event.number = 1
                filling.set()
                time.sleep(0.03)
                event.number = 2

        disruptor = Disruptor(4, Event).handle("sees", lambda event, sequence, is_last: seen.append(event.number))
        with self.assertRaises(KeyboardInterrupt), disruptor.senders(1) as senders:
            threading.Thread(target=fill, args=senders).start()
            filling.wait()
            raise KeyboardInterrupt
        self.assertEqual(seen, [2])

    def test_an_interrupt_right_after_a_claim_leaves_none_open(self):
        ends = ends_of(4, [0])
        with unittest.mock.patch.object(Events, "at", side_effect=KeyboardInterrupt), self.assertRaises(KeyboardInterrupt):
            ends.senders[0].event().__enter__()
        self.assertEqual(ends.senders[0].progress(), (1, 1))

    def test_numbers_that_no_call_can_have_are_refused(self):
        ends = ends_of(4, [0])
        for n in (-1, (1 << 64) + 1):
            self.refused(Reason.BAD_COUNT, ends.senders[0].events(n).__enter__)
            self.refused(Reason.BAD_SIZE, ends_of, n << 2, [0])
            self.refused(Reason.BAD_ORDER, ends_of, 4, [0, n])
            self.refused(Reason.BAD_PRODUCERS, ends_of, 4, [0], n)
            self.refused(Reason.BAD_LIMIT, Ends, 4, lambda size: Events(size, Event), [0], None, n)
        for call in (ends.senders[0].events(2.0).__enter__, lambda: ends_of(4.0, [0]), lambda: Disruptor(4.0, Event)):
            with self.assertRaisesRegex(TypeError, "'float' object cannot be interpreted as an integer"):
                call()
        self.assertEqual(ends.senders[0].progress(), (0, 0))

    def test_an_event_outside_a_with_is_not_claimed(self):
        seen = []
        disruptor = Disruptor(4, Event).handle("sees", lambda event, sequence, is_last: seen.append(sequence))
        with disruptor.senders(1) as senders:
            with self.assertRaises(AttributeError):
                senders[0].event().number = 3
        self.assertEqual(seen, [])

    def test_once_it_started_no_handler_is_added_and_a_name_is_one_of_its_own(self):
        disruptor = Disruptor(4, Event).handle("one", lambda *shown: None)
        for _ in range(2):
            with self.assertRaisesRegex(ValueError, "has the name two"):
                disruptor.completed("two")
            with disruptor.sender(), self.assertRaisesRegex(RuntimeError, "it has started"):
                disruptor.handle("two", lambda *shown: None)

    def test_a_ring_that_runs_is_not_opened_again(self):
        seen = []
        disruptor = Disruptor(8, Event).handle("sees", lambda event, sequence, is_last: seen.append(sequence))
        with disruptor.sender() as sender:
            with self.assertRaisesRegex(RuntimeError, "still runs"):
                disruptor.senders(2).__enter__()
            send(sender, [1])
        with disruptor.senders(2) as senders:
            send(senders[1], [2])
        self.assertEqual(seen, [0, 0])

    def test_a_thread_that_does_not_start_ends_the_others(self):
        started, start = [], threading.Thread.start

        def start_one(thread):
            if started:
                raise RuntimeError("can't start new thread")
            started.append(thread)
            start(thread)

        disruptor = Disruptor(4, Event).handle("one", print).handle("two", print)
        with unittest.mock.patch.object(threading.Thread, "start", start_one), self.assertRaises(RuntimeError):
            disruptor.sender().__enter__()
        self.assertFalse(started[0].is_alive())

    def test_a_deadline_ends_a_wait(self):
        ends, seen = ends_of(4, [0]), []
        sender, receiver = ends.senders[0], ends.receivers[0]

        def see(event, sequence, is_last):
            seen.append(event.number)

        self.assertEqual(receiver.receive(see, 0.02), 0)
        send(sender, [1, 2, 3])
        with sender.event(timeout=0.02) as event:
            event.number = 4
        self.refused(Reason.NO_ROOM, sender.events(1, timeout=0.02).__enter__)
        self.assertEqual(receiver.receive(see, 0.02), 4)
        self.assertFalse(receiver.is_drained)
        sender.close()
        self.assertEqual((receiver.receive(see, 0.02), receiver.is_drained), (0, True))
        self.assertEqual((seen, sender.published, receiver.completed), ([1, 2, 3, 4], 4, 4))

    def test_any_thread_asks_how_far_a_ring_is(self):
        ends = ends_of(4, [0, 1])
        send(ends.senders[0], range(3))
        ends.receivers[0].receive(lambda *shown: None, 0, room=2)
        self.assertEqual((ends.cursor(), ends.completed(0), ends.completed(1)), (3, 2, 0))
        for none in (2, -1, 1 << 70):
            self.refused(Reason.NO_HANDLER, ends.completed, none)
        several = ends_of(4, [0], 2)
        send(several.senders[1], [1, 2])
        self.assertEqual(several.cursor(), 2)
        disruptor = Disruptor(4, Event).handle("one", lambda *shown: None)
        self.assertEqual(disruptor.cursor(), 0)
        with disruptor.sender() as sender:
            send(sender, [1, 2])
            self.assertEqual(disruptor.cursor(), 2)
        self.assertEqual((disruptor.cursor(), disruptor.completed("one")), (2, 2))

    def test_several_senders_share_a_ring(self):
        total = []

        def double(event, sequence, is_last):
            event.number *= 2

        disruptor = Disruptor(64, Event).handle("doubles", double, changes=True).and_then()
        disruptor.handle("adds", lambda event, sequence, is_last: total.append(event.number))
        with disruptor.senders(3) as senders:
            threads = [
                threading.Thread(target=lambda it=it: [send(it, range(k, k + 4)) for k in range(0, 400, 4)]) for it in senders
            ]
            for thread in threads:
                thread.start()
            for thread in threads:
                thread.join()
        self.assertEqual(sum(total), 3 * 2 * sum(range(400)))

    def test_records_lie_in_one_buffer(self):
        seen = []

        def add(views, first):
            for view in views:
                for k in range(0, len(view), 2):
                    view[k + 1] += view[k]

        disruptor = Disruptor(8, record="QQ").handle_batches("adds", add, changes=True).and_then()
        disruptor.handle_batches("sees", lambda views, first: seen.extend(it for view in views for it in view))
        with disruptor.sender() as sender:
            for k in range(0, 60, 3):
                sender.send(array.array("Q", [k, 1, k + 1, 1, k + 2, 1]))
            with self.assertRaises(ValueError):
                sender.send(array.array("Q", [1]))
            with sender.event() as record:
                record[0], record[1] = 60, 1
        self.assertEqual(seen, [it for k in range(61) for it in (k, k + 1)])
        ends = Ends(4, lambda size: Records(size, "QQ"), [0])
        for other in (array.array("d", [1.0, 2.0]), array.array("q", [1, 2]), array.array("I", [1, 2, 3, 4])):
            with self.assertRaises(TypeError):
                ends.senders[0].send(other)
        self.assertEqual(ends.senders[0].published, 0)
        like = Ends(4, lambda size: Records(size, "QQ"), [0])
        like.senders[0].send(array.array("L", [1, 2]))
        like.senders[0].send(struct.pack("QQ", 3, 4))
        self.assertEqual([list(it) for it in like.slots.each(0, 2)], [[1, 2], [3, 4]])
        ends.senders[0].send(array.array("Q", range(8)))
        self.refused(Reason.NO_ROOM, ends.senders[0].send, array.array("Q", [1, 2]), 0.02)
        one_by_one = []
        disruptor = Disruptor(4, record="QQ")
        disruptor.handle("sees", lambda record, sequence, is_last: one_by_one.append((*record, sequence)))
        with disruptor.sender() as sender:
            sender.send(array.array("Q", range(6)))
        self.assertEqual(one_by_one, [(0, 1, 0), (2, 3, 1), (4, 5, 2)])
        self.assertRaises(ValueError, Records, 4, "QI")

    def test_a_handler_that_only_reads_changes_no_record(self):
        seen = []

        def change(record, sequence, is_last):
            record[1] = 2 * record[0]

        def change_batch(views, first):
            views[0][0] = 9

        for name, handler in (("handle", change), ("handle_batches", change_batch)):
            disruptor = getattr(Disruptor(4, record="QQ"), name)("changes", handler)
            with self.assertRaises(HandlerFailed) as raised, disruptor.sender() as sender:
                sender.send(array.array("Q", [1, 1]))
            self.assertEqual(type(raised.exception.__cause__), TypeError)
        disruptor = Disruptor(4, record="QQ").handle("changes", change, changes=True).and_then()
        disruptor.handle("sees", lambda record, sequence, is_last: seen.append(list(record)))
        with disruptor.sender() as sender:
            sender.send(array.array("Q", [1, 1]))
        self.assertEqual(seen, [[1, 2]])

    def test_a_reason_prints_its_name_and_a_refusal_says_what_it_means(self):
        self.assertEqual((str(Reason.NO_ROOM), f"{Reason.NO_ROOM}", int(Reason.NO_ROOM)), ("no-room", "no-room", 1))
        self.assertEqual(str(Refusal(31)), "bad-size: the size is no power of two from 1 to 65536")

    def test_a_thread_that_sleeps_is_woken(self):
        late = []
        disruptor = Disruptor(4, Event)
        disruptor.handle("slow", lambda event, sequence, is_last: late.append(time.monotonic() - event.number))
        with disruptor.sender() as sender:
            for _ in range(10):
                time.sleep(0.03)
                send(sender, [time.monotonic()])
        self.assertEqual(len(late), 10)

    def test_the_example_of_the_readme(self):
        with open(README, encoding="utf-8") as readme:
            program = re.search(r"```python\n(.*?)```", readme.read(), re.S)[1]
        self.assertLessEqual(program.count("\n"), 30)
        ran = subprocess.run([sys.executable, "-c", program], capture_output=True, text=True, timeout=60)
        self.assertEqual((ran.stdout, ran.stderr), ("each handler had every order\n", ""))


if __name__ == "__main__":
    unittest.main()
