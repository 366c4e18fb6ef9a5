"""An interrupt at each step of the package by which events are claimed and published, and another at each by which the ring ends."""

import gc
import linecache
import os
import subprocess
import sys
import threading
import unittest
import unittest.mock

import verified_disruptor
from verified_disruptor import Disruptor, Ends
from verified_disruptor._slots import Events
from verified_disruptor._waiting import Bell, Waiting

NEVER = 1 << 60
STEPS_IN = (os.path.dirname(os.path.abspath(verified_disruptor.__file__)), threading.__file__)


class Event:
    number = 0


class OnceJoined:
    """In place of a thread: it runs when it is joined first, so that one that has to wait then would wait for ever."""

    ident = None

    def __init__(self, target, args, name, daemon):
        self._work = [lambda: target(*args)]

    def join(self):
        while self._work:
            self._work.pop()()

    def start(self):
        self.ident = 1


def interrupt():
    raise KeyboardInterrupt


class Interrupt:
    """Comes at one step of a call: where a function of the package or of `threading` begins or ends, or at a line of it."""

    def __init__(self, step, come=interrupt):
        self._steps_left, self._come = step, come

    def _trace(self, frame, event, argument):
        if not frame.f_code.co_filename.startswith(STEPS_IN):
            return None
        self._steps_left -= 1
        if self._steps_left == -1:
            self._come()
        return self._trace

    def came(self):
        return self._steps_left < 0

    def during(self, call, *arguments):
        # (else it might come where an earlier ring is let go)
        gc.disable()
        sys.settrace(self._trace)
        try:
            return call(*arguments)
        finally:
            sys.settrace(None)
            gc.enable()


class BetweenSteps(Interrupt):
    """Comes only where Python lets one come in code that calls nothing: where a function begins, or a loop goes round."""

    def _trace(self, frame, event, argument):
        line = linecache.getline(frame.f_code.co_filename, frame.f_lineno).lstrip()
        if event == "call" or (event == "line" and line.startswith(("for ", "while "))):
            return super()._trace(frame, event, argument)
        return self._trace


class InRunBatches(Interrupt):
    """Comes at a line of `run_batches`."""

    def _trace(self, frame, event, argument):
        return super()._trace(frame, event, argument) if frame.f_code.co_name == "run_batches" else None


def send(sender):
    for number in range(2):
        with sender.event() as event:
            event.number = number


def ended_ring():
    """A ring with two events for its handler, and none after them."""
    ends = Ends(4, lambda size: Events(size, Event), [0])
    send(ends.senders[0])
    ends.senders[0].close()
    return ends


class Interrupts(unittest.TestCase):
    def setUp(self):
        self.wait = unittest.mock.Mock(side_effect=TimeoutError)
        for patch in (
            unittest.mock.patch.object(threading, "Thread", OnceJoined),
            unittest.mock.patch.object(Waiting, "wait", self.wait),
        ):
            patch.start()
            self.addCleanup(patch.stop)

    def run_with(self, of_several, first, second):
        """Each event that was claimed is published, and the handler has it."""
        seen, stop = [], Disruptor._stop
        disruptor = Disruptor(8, Event).handle("sees", lambda event, sequence, is_last: seen.append(sequence))
        with unittest.mock.patch.object(Disruptor, "_stop", staticmethod(lambda *each: second.during(stop, *each))):
            try:
                with disruptor.senders(2) if of_several else disruptor.sender() as ends:
                    sender = ends[0] if of_several else ends
                    first.during(send, sender)
            except KeyboardInterrupt:
                self.assertTrue(first.came() or second.came())
        self.assertFalse(self.wait.called, "it waits for ever")
        self.assertEqual(seen, list(range(sender.published)))
        if not of_several:
            self.assertEqual(sender.progress(), (sender.published, sender.published))

    def run_with_each_second(self, of_several, first_step):
        """Whether the first interrupt came. (A second one at each step takes long, so there is none after most of the first)"""
        first, step = Interrupt(first_step), 0
        second = Interrupt(0 if first_step % 16 == 0 else NEVER)
        self.run_with(of_several, first, second)
        while second.came():
            step += 1
            second = Interrupt(step)
            with self.subTest(of_several=of_several, first=first_step, second=step):
                self.run_with(of_several, Interrupt(first_step), second)
        return first.came()

    def test_a_ring_ends_whenever_an_interrupt_comes_and_one_more(self):
        for of_several in (False, True):
            step = 0
            while self.run_with_each_second(of_several, step):
                step += 1
            self.assertGreater(step, 40)

    def test_a_program_ends_whose_ring_an_interrupt_kept_from_ending(self):
        program = """
import contextlib, sys
from verified_disruptor import Disruptor

class Event: number = 0

def interrupt(frame, event, argument):
    if frame.f_code is contextlib._GeneratorContextManager.__exit__.__code__: raise KeyboardInterrupt

seen = Disruptor(4, Event).handle("sees", lambda event, sequence, is_last: print(event.number, flush=True))
with seen.sender() as sender:
    with sender.event() as event:
        event.number = 7
    sys.settrace(interrupt)
"""
        ran = subprocess.run([sys.executable, "-c", program], capture_output=True, text=True, timeout=20)
        self.assertEqual((ran.stdout, ran.stderr.splitlines()[-1]), ("7\n", "KeyboardInterrupt"))

    def test_an_interrupt_while_the_with_waits_takes_no_event_from_its_handlers(self):
        program = """
import os, signal, time
from verified_disruptor import Disruptor

class Event: pass

def handle(event, sequence, is_last):
    time.sleep(0.1)
    if sequence == 1: os.kill(os.getpid(), signal.SIGINT)
    print(sequence, flush=True)

with Disruptor(4, Event).handle("slow", handle).sender() as sender:
    with sender.events(4): pass
"""
        ran = subprocess.run([sys.executable, "-c", program], capture_output=True, text=True, timeout=20)
        self.assertEqual(ran.stdout.split(), ["0", "1", "2", "3"])
        self.assertIn("KeyboardInterrupt", ran.stderr.splitlines()[-1])


class Receipts(unittest.TestCase):
    def run_with(self, it, run):
        """A handler has each event once, where it is run again after an interrupt."""
        seen, receiver = [], ended_ring().receivers[0]
        try:
            it.during(run, receiver, seen)
        except KeyboardInterrupt:
            self.assertTrue(it.came())
        run(receiver, seen)
        self.assertEqual((seen, receiver.progress(), receiver.completed), ([0, 1], (2, 2), 2))

    def test_a_handler_has_each_event_whenever_an_interrupt_comes(self):
        for run in (
            lambda receiver, seen: receiver.run(lambda event, sequence, is_last: seen.append(event.number)),
            lambda receiver, seen: receiver.run_batches(lambda events, first: seen.extend(it.number for it in events)),
        ):
            step, came = 0, True
            while came:
                it = BetweenSteps(step)
                with self.subTest(step=step):
                    self.run_with(it, run)
                step, came = step + 1, it.came()
            self.assertGreater(step, 10)


    def test_only_at_the_call_itself_does_a_batch_count_as_handled(self):
        lost, seen, step = [], [], 0
        while not seen:
            receiver = ended_ring().receivers[0]
            try:
                InRunBatches(step).during(receiver.run_batches, lambda events, first: seen.append(first))
            except KeyboardInterrupt:
                step += 1
            if not seen:
                again = []
                receiver.run_batches(lambda events, first: again.append(first))
                lost.append(not again)
        self.assertEqual(lost, [False] * (len(lost) - 1) + [True])
        self.assertGreater(len(lost), 5)


class Bells(unittest.TestCase):
    def use(self, bell, it):
        """What is raised where something comes at a step of the bell's calls, each of which ends, also afterwards."""
        raised = []

        def work():
            try:
                it.during(lambda: (bell.listen(), bell.sleep(bell.listen()), bell.ring()))
            except BaseException as error:
                raised.append(type(error))
            bell.sleep(bell.listen())
            bell.ring()

        thread = threading.Thread(target=work, daemon=True)
        thread.start()
        thread.join(5)
        self.assertFalse(thread.is_alive(), "it waits for ever")
        return raised

    def test_an_interrupt_at_any_step_leaves_a_bell_that_rings(self):
        step, it = 0, Interrupt(0)
        while self.use(Bell(), it) == [KeyboardInterrupt]:
            step += 1
            it = Interrupt(step)
        self.assertFalse(it.came())
        self.assertGreater(step, 10)

    def test_the_handler_of_a_signal_rings_at_any_step(self):
        step, came = 0, True
        while came:
            bell = Bell()
            it = Interrupt(step, bell.ring)
            self.assertEqual(self.use(bell, it), [])
            step, came = step + 1, it.came()


if __name__ == "__main__":
    unittest.main()
