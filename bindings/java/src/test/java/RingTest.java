import java.io.PrintWriter;
import java.io.StringWriter;
import java.util.ArrayList;
import java.util.List;
import java.util.Set;
import java.util.concurrent.Callable;
import java.util.concurrent.CountDownLatch;
import java.util.concurrent.TimeUnit;
import java.util.concurrent.atomic.AtomicLong;
import java.util.concurrent.locks.LockSupport;
import org.verified.disruptor.Broken;
import org.verified.disruptor.Disruptor;
import org.verified.disruptor.EventHandler;
import org.verified.disruptor.HandlerFailed;
import org.verified.disruptor.Receiver;
import org.verified.disruptor.Refusal;
import org.verified.disruptor.Ring;
import org.verified.disruptor.Sender;

/** What no type says of a ring of slots in Java. */
public final class RingTest {
    private RingTest() {}

    static final class Event {
        long number;
    }

    static void expect(Object is, Object wanted) {
        if (!wanted.equals(is)) {
            throw new AssertionError(is + ", and not " + wanted);
        }
    }

    static Throwable thrown(Callable<?> call) {
        try {
            call.call();
        } catch (Throwable thrown) {
            return thrown;
        }
        throw new AssertionError("nothing is thrown");
    }

    static void refused(Refusal.Reason reason, Runnable call) {
        Throwable thrown = thrown(() -> {
            call.run();
            return null;
        });
        expect(((Refusal) thrown).reason(), reason);
    }

    static void fill(Event event, long sequence) {
        event.number = sequence;
    }

    static Ring<Event> ring(int size, long... upstreams) {
        return Ring.open(Event::new, size, Ring.MAX_LIMIT, upstreams);
    }

    private static void aFullRingHasNoRoom() throws Exception {
        Ring<Event> ring = ring(4, 0);
        Sender<Event> sender = ring.senders().get(0);
        expect(sender.tryPublishEvents(3, RingTest::fill), true);
        expect(sender.tryPublishEvents(2, RingTest::fill), false);
        refused(Refusal.Reason.BAD_COUNT, () -> sender.publishEvents(5, RingTest::fill));
        List<Long> seen = new ArrayList<>();
        ring.receivers().get(0).run((event, sequence, endOfBatch) -> {
            expect(event.number, sequence);
            seen.add(sequence);
            // (the claim goes round the end of the slots, once the first batch is completed)
            if (sequence == 3) {
                sender.close();
            } else if (sequence == 2) {
                expect(endOfBatch, true);
                expect(sender.tryPublishEvents(1, RingTest::fill), true);
            }
        });
        expect(seen, List.of(0L, 1L, 2L, 3L));
        expect(sender.published(), 4L);
        refused(Refusal.Reason.HALTED, () -> sender.publishEvent(RingTest::fill));
    }

    private static void aBatchGoesOnAfterTheEventAtWhichAHandlerThrew() throws Exception {
        Ring<Event> ring = ring(16, 0);
        ring.senders().get(0).publishEvents(10, RingTest::fill);
        ring.senders().get(0).close();
        List<Long> seen = new ArrayList<>();
        EventHandler<Event> handler = (event, sequence, endOfBatch) -> {
            if (sequence == 3) {
                throw new IllegalStateException("the fourth event");
            }
            seen.add(event.number);
        };
        Receiver<Event> receiver = ring.receivers().get(0);
        Throwable thrown = thrown(() -> {
            receiver.run(handler);
            return null;
        });
        expect(thrown.getMessage(), "the fourth event");
        expect(receiver.completed(), 3L);
        receiver.run(handler);
        expect(seen, List.of(0L, 1L, 2L, 4L, 5L, 6L, 7L, 8L, 9L));
        expect(receiver.completed(), 10L);
    }

    private static void aHandlerThatReceivesByItsOwnEndIsRefused() throws Exception {
        Ring<Event> ring = ring(4, 0);
        Receiver<Event> receiver = ring.receivers().get(0);
        ring.senders().get(0).publishEvents(4, RingTest::fill);
        List<Long> seen = new ArrayList<>();
        EventHandler<Event> handler = (event, sequence, endOfBatch) -> {
            seen.add(sequence);
            if (sequence == 0) {
                receiver.receive(0, TimeUnit.SECONDS, (other, itsSequence, isItsEnd) -> seen.add(itsSequence));
            }
        };
        Throwable thrown = thrown(() -> receiver.receive(0, TimeUnit.SECONDS, handler));
        expect(thrown.getMessage(), "a handler receives by its own end");
        // (that handler failed at its event)
        expect(receiver.receive(0, TimeUnit.SECONDS, handler), 3);
        expect(seen, List.of(0L, 1L, 2L, 3L));
        expect(receiver.completed(), 4L);
    }

    private static void aReceiverThatIsClosedBeforeItIsDrainedHaltsTheRing() throws Exception {
        Ring<Event> ring = ring(4, 0, 1);
        Sender<Event> sender = ring.senders().get(0);
        sender.publishEvents(4, RingTest::fill);
        Throwable thrown = thrown(() -> {
            try (Receiver<Event> receiver = ring.receivers().get(0)) {
                receiver.run((event, sequence, endOfBatch) -> {
                    if (sequence == 2) {
                        throw new IllegalStateException("the third event");
                    }
                });
            }
            return null;
        });
        expect(thrown.getMessage(), "the third event");
        refused(Refusal.Reason.HALTED, () -> sender.tryPublishEvents(1, 1, TimeUnit.SECONDS, RingTest::fill));
        List<Long> seen = new ArrayList<>();
        expect(thrown(() -> {
            ring.receivers().get(1).run((event, sequence, endOfBatch) -> seen.add(sequence));
            return null;
        }).getClass(), Broken.class);
        expect(seen, List.of(0L, 1L));
        Ring<Event> drained = ring(4, 0);
        try (Receiver<Event> receiver = drained.receivers().get(0)) {
            drained.senders().get(0).close();
            receiver.run((event, sequence, endOfBatch) -> {});
        }
    }

    private static void whatARingHandsOutDoesNotChangeIt() {
        Ring<Event> ring = ring(4, 0);
        for (List<?> ends : List.of(ring.senders(), ring.receivers())) {
            expect(thrown(() -> ends.remove(0)).getClass(), UnsupportedOperationException.class);
        }
    }

    private static void tooManyHandlersAreRefusedAfterABadSize() {
        for (int handlers : new int[] {17, 65, 1000}) {
            refused(Refusal.Reason.BAD_SIZE, () -> ring(5, new long[handlers]));
            refused(Refusal.Reason.TOO_MANY, () -> ring(4, new long[handlers]));
        }
    }

    private static void aFillingThatThrowsLeavesTheRingInOrder() throws Exception {
        Ring<Event> ring = ring(4, 0);
        Sender<Event> sender = ring.senders().get(0);
        thrown(() -> {
            sender.publishEvent((event, sequence) -> {
                throw new IllegalStateException();
            });
            return null;
        });
        sender.publishEvent((event, sequence) -> event.number = 6);
        sender.close();
        List<Long> seen = new ArrayList<>();
        ring.receivers().get(0).run((event, sequence, endOfBatch) -> seen.add(event.number));
        expect(seen, List.of(0L, 6L));
    }

    private static void thoseWhoFollowOneThatGaveUpEnd() {
        Ring<Event> ring = ring(4, 0, 1);
        ring.senders().get(0).publishEvent(RingTest::fill);
        ring.giveUp();
        refused(Refusal.Reason.HALTED, () -> ring.senders().get(0).publishEvent(RingTest::fill));
        Throwable thrown = thrown(() -> {
            ring.receivers().get(1).run((event, sequence, endOfBatch) -> {});
            return null;
        });
        expect(thrown.getClass(), Broken.class);
    }

    private static String fault(Runnable call) {
        return thrown(() -> {
            call.run();
            return null;
        }).getMessage();
    }

    static Disruptor<Event> one(int size) {
        return new Disruptor<>(Event::new, size).handle("a", (event, sequence, endOfBatch) -> {});
    }

    private static void graphsAreRefusedByName() {
        EventHandler<Event> none = (event, sequence, endOfBatch) -> {};
        expect(fault(() -> one(4).after("b")), "no handler before has the name b");
        expect(fault(() -> one(4).handle("a", none)), "two handlers have the name a");
        expect(fault(() -> one(4).handleChanging("b", none).start()),
                "b would change events that another handler reads at the same time");
        for (int size : new int[] {0, -4, Integer.MIN_VALUE, 5, 1 << 17}) {
            refused(Refusal.Reason.BAD_SIZE, () -> new Disruptor<>(Event::new, size));
        }
        expect(fault(() -> one(5)), "bad-size: the size is no power of two from 1 to 65536");
        refused(Refusal.Reason.NO_HANDLERS, () -> new Disruptor<>(Event::new, 4).start());
        refused(Refusal.Reason.BAD_PRODUCERS, () -> one(4).startSeveral(Integer.MAX_VALUE));
        refused(Refusal.Reason.BAD_PRODUCERS, () -> one(4).startSeveral(0));
    }

    private static void aHandlerThatThrowsHaltsTheRingAndIsNamed() {
        AtomicLong most = new AtomicLong();
        Disruptor<Event> disruptor = new Disruptor<>(Event::new, 4);
        disruptor.handle("first", (event, sequence, endOfBatch) -> {
            if (event.number == 10) {
                throw new IllegalStateException("too large");
            }
        });
        disruptor.after("first").handle("second", (event, sequence, endOfBatch) -> most.set(event.number));
        disruptor.start();
        refused(Refusal.Reason.HALTED, () -> {
            for (int k = 0; k < 100; k++) {
                disruptor.publishEvent(RingTest::fill);
            }
        });
        HandlerFailed failed = (HandlerFailed) thrown(() -> {
            disruptor.shutdown();
            return null;
        });
        expect(failed.handler(), "first");
        expect(failed.getCause().getMessage(), "too large");
        // (the refusal says which one)
        expect(fault(() -> disruptor.publishEvent(RingTest::fill)).split(":")[0], "halted");
        expect(thrown(() -> {
            disruptor.publishEvent(RingTest::fill);
            return null;
        }).getCause(), failed);
        expect(most.get() < 10, true);
    }

    private static void aPublicationThatIsRefusedShowsEachHandlerThatFailedOnce() {
        CountDownLatch both = new CountDownLatch(2);
        EventHandler<Event> fails = (event, sequence, endOfBatch) -> {
            both.countDown();
            both.await();
            throw new IllegalStateException("too large");
        };
        Throwable refusal = thrown(() -> {
            try (Disruptor<Event> disruptor = new Disruptor<>(Event::new, 4)) {
                disruptor.handle("one", fails).handle("other", fails).start();
                while (true) {
                    disruptor.publishEvent(RingTest::fill);
                }
            }
        });
        StringWriter trace = new StringWriter();
        refusal.printStackTrace(new PrintWriter(trace));
        expect(trace.toString().contains("CIRCULAR"), false);
        HandlerFailed failed = (HandlerFailed) refusal.getCause();
        HandlerFailed next = (HandlerFailed) failed.getSuppressed()[0];
        expect(Set.of(failed.handler(), next.handler()), Set.of("one", "other"));
        expect(next.getCause().getMessage(), "too large");
    }

    private static void onceItStartedNoHandlerIsAddedAndANameIsOneOfItsOwn() {
        Disruptor<Event> disruptor = one(4);
        disruptor.start();
        expect(fault(() -> disruptor.handle("b", (event, sequence, endOfBatch) -> {})), "it has started");
        expect(fault(() -> disruptor.completed("b")), "no handler before has the name b");
        disruptor.shutdown();
    }

    private static void aTranslatorThatPublishesIsRefused() throws Exception {
        Ring<Event> ring = ring(4, 0);
        Sender<Event> sender = ring.senders().get(0);
        refused(Refusal.Reason.OPEN_CLAIM, () -> sender.publishEvent((event, sequence) -> sender.publishEvent(RingTest::fill)));
        sender.publishEvent(RingTest::fill);
        ring.halt();
        refused(Refusal.Reason.HALTED, () -> sender.publishEvent(RingTest::fill));
        // (the sender closed the ring then)
        ring.receivers().get(0).run((event, sequence, endOfBatch) -> {});
        expect(ring.receivers().get(0).completed(), 2L);
    }

    private static void whoFollowsOneThatFailsHasWhatItCompletedAndOthersHaveAll() {
        CountDownLatch claimed = new CountDownLatch(1);
        long[] counted = new long[2];
        Disruptor<Event> disruptor = new Disruptor<>(Event::new, 4);
        // (the first two events are handled only once the third is claimed, and that one is published only once the second failed)
        disruptor.handle("fails", (event, sequence, endOfBatch) -> {
            claimed.await();
            if (sequence == 1) {
                throw new IllegalStateException("the second event");
            }
        });
        disruptor.handle("counts", (event, sequence, endOfBatch) -> counted[0]++);
        disruptor.after("fails").handle("follows", (event, sequence, endOfBatch) -> counted[1]++);
        disruptor.start();
        disruptor.publishEvents(2, RingTest::fill);
        disruptor.publishEvent((event, sequence) -> {
            claimed.countDown();
            LockSupport.parkNanos(30_000_000);
        });
        expect(fault(disruptor::shutdown), "the handler fails threw");
        expect(List.of(counted[0], counted[1]), List.of(3L, 1L));
    }

    private static void whoFollowsTwoHasWhatBothCompletedUpToTheCut() {
        long[] counted = new long[2];
        Disruptor<Event> disruptor = new Disruptor<>(Event::new, 1024);
        disruptor.handle("fails", (event, sequence, endOfBatch) -> {
            if (sequence == 500) {
                throw new IllegalStateException("the event 500");
            }
        });
        // (this one is on its way while the other one fails)
        disruptor.handle("slow", (event, sequence, endOfBatch) -> {
            if (sequence == 100) {
                Thread.sleep(100);
            }
            counted[0]++;
        });
        disruptor.after("fails", "slow").handle("follows", (event, sequence, endOfBatch) -> counted[1]++);
        disruptor.start();
        disruptor.publishEvents(800, RingTest::fill);
        expect(fault(disruptor::shutdown), "the handler fails threw");
        expect(List.of(counted[0], counted[1]), List.of(800L, 500L));
    }

    private static void namesAndGroupsMix() {
        EventHandler<Event> none = (event, sequence, endOfBatch) -> {};
        Disruptor<Event> disruptor = one(4);
        disruptor.handleEventsWith(none).then(none);
        // (a group leaves those that come next by name where they were: "b" follows nobody)
        expect(fault(() -> disruptor.handleChanging("b", none).after("a", "handler-1", "b").handleChanging("c", none).start()),
                "b would change events that another handler reads at the same time");
        // (one that is refused does too: "next" follows the first)
        Disruptor<Event> refused = new Disruptor<>(Event::new, 4);
        refused.handle("handler-1", none).after("handler-1");
        expect(fault(() -> refused.handleEventsWith(none)), "two handlers have the name handler-1");
        refused.handleChanging("next", none).start();
        refused.shutdown();
        expect(thrown(() -> {
            new Disruptor<>(Event::new, 4).publishEvent((event, sequence) -> {});
            return null;
        }).getClass(), IllegalStateException.class);
    }

    private static void severalSendersShareARing() throws InterruptedException {
        long[] total = new long[1];
        Disruptor<Event> disruptor = new Disruptor<>(Event::new, 64);
        disruptor.handleChanging("doubles", (event, sequence, endOfBatch) -> event.number *= 2);
        disruptor.after("doubles").handle("adds", (event, sequence, endOfBatch) -> total[0] += event.number);
        List<Thread> threads = new ArrayList<>();
        for (Sender<Event> sender : disruptor.startSeveral(3)) {
            threads.add(new Thread(() -> {
                for (long k = 0; k < 1000; k += 4) {
                    long[] next = {k};
                    sender.publishEvents(4, (event, sequence) -> event.number = next[0]++);
                }
            }));
        }
        threads.forEach(Thread::start);
        for (Thread thread : threads) {
            thread.join();
        }
        disruptor.shutdown();
        expect(total[0], 3 * 999_000L);
    }

    private static void handlersFollowOneAnotherAsInLmaxsDsl() throws InterruptedException {
        long[] seen = new long[3];
        Disruptor<Event> disruptor = new Disruptor<>(Event::new, 4);
        EventHandler<Event> first = (event, sequence, endOfBatch) -> seen[0]++;
        EventHandler<Event> second = (event, sequence, endOfBatch) -> seen[1]++;
        disruptor.handleEventsWith(first, second).then((event, sequence, endOfBatch) -> {
            if (seen[0] > sequence && seen[1] > sequence) {
                seen[2]++;
            }
        });
        disruptor.start();
        for (int k = 0; k < 20; k++) {
            Thread.sleep(3); // (longer than a handler looks before it sleeps)
            disruptor.publishEvent(RingTest::fill);
        }
        disruptor.close();
        expect(seen[2], 20L);
        expect(disruptor.completed("handler-2"), 20L);
    }

    private static void aDeadlineEndsAWait() throws Exception {
        Ring<Event> ring = ring(4, 0);
        Sender<Event> sender = ring.senders().get(0);
        Receiver<Event> receiver = ring.receivers().get(0);
        EventHandler<Event> right = (event, sequence, endOfBatch) -> expect(event.number, sequence);
        expect(receiver.receive(20, TimeUnit.MILLISECONDS, right), 0);
        expect(sender.tryPublishEvents(4, 20, TimeUnit.MILLISECONDS, RingTest::fill), true);
        expect(sender.tryPublishEvents(1, 20, TimeUnit.MILLISECONDS, RingTest::fill), false);
        expect(receiver.receive(20, TimeUnit.MILLISECONDS, right), 4);
        expect(sender.tryPublishEvents(1, RingTest::fill), true);
        sender.close();
        expect(receiver.receive(20, TimeUnit.MILLISECONDS, right), 1);
        expect(receiver.isDrained(), false);
        expect(receiver.receive(20, TimeUnit.MILLISECONDS, right), 0);
        expect(receiver.isDrained(), true);
        expect(receiver.completed(), 5L);
    }

    public static void main(String[] arguments) throws Exception {
        aFullRingHasNoRoom();
        aBatchGoesOnAfterTheEventAtWhichAHandlerThrew();
        aHandlerThatReceivesByItsOwnEndIsRefused();
        aReceiverThatIsClosedBeforeItIsDrainedHaltsTheRing();
        ThreadsTest.run();
        whatARingHandsOutDoesNotChangeIt();
        tooManyHandlersAreRefusedAfterABadSize();
        aFillingThatThrowsLeavesTheRingInOrder();
        thoseWhoFollowOneThatGaveUpEnd();
        graphsAreRefusedByName();
        aHandlerThatThrowsHaltsTheRingAndIsNamed();
        aPublicationThatIsRefusedShowsEachHandlerThatFailedOnce();
        onceItStartedNoHandlerIsAddedAndANameIsOneOfItsOwn();
        aTranslatorThatPublishesIsRefused();
        whoFollowsOneThatFailsHasWhatItCompletedAndOthersHaveAll();
        whoFollowsTwoHasWhatBothCompletedUpToTheCut();
        namesAndGroupsMix();
        severalSendersShareARing();
        handlersFollowOneAnotherAsInLmaxsDsl();
        aDeadlineEndsAWait();
        System.out.println("each test passed");
    }
}
