import java.util.List;
import java.util.concurrent.ExecutionException;
import java.util.concurrent.FutureTask;
import java.util.concurrent.TimeUnit;
import org.verified.disruptor.Disruptor;
import org.verified.disruptor.EventHandler;
import org.verified.disruptor.Receiver;
import org.verified.disruptor.Refusal;
import org.verified.disruptor.Ring;
import org.verified.disruptor.Sender;

/** What several threads may do with the ends of a ring: use one in turn, and ask how far it is. */
final class ThreadsTest {
    private ThreadsTest() {}

    /** Uses an end by another thread while this one does, and expects that to be refused. */
    private static void usedByAnotherThread(Runnable use) {
        FutureTask<String> task = new FutureTask<>(() -> {
            Throwable thrown = RingTest.thrown(() -> {
                use.run();
                return null;
            });
            RingTest.expect(thrown.getClass(), IllegalStateException.class);
            return thrown.getMessage();
        });
        new Thread(task, "other").start();
        try {
            RingTest.expect(task.get().split(":")[0], "an end is for one thread at a time");
        } catch (InterruptedException | ExecutionException failed) {
            throw new AssertionError(failed);
        }
    }

    private static void anEndIsForOneThreadAtATime() throws Exception {
        Ring<RingTest.Event> ring = RingTest.ring(4, 0);
        Sender<RingTest.Event> sender = ring.senders().get(0);
        Receiver<RingTest.Event> receiver = ring.receivers().get(0);
        EventHandler<RingTest.Event> none = (event, sequence, endOfBatch) -> {};
        sender.publishEvent((event, sequence) -> {
            usedByAnotherThread(() -> sender.publishEvent(RingTest::fill));
            usedByAnotherThread(() -> sender.tryPublishEvents(1, RingTest::fill));
            usedByAnotherThread(() -> sender.tryPublishEvents(1, 1, TimeUnit.SECONDS, RingTest::fill));
            usedByAnotherThread(sender::close);
        });
        receiver.receive(0, TimeUnit.SECONDS, (event, sequence, endOfBatch) -> usedByAnotherThread(() -> {
            try {
                receiver.receive(0, TimeUnit.SECONDS, none);
            } catch (IllegalStateException refused) {
                throw refused;
            } catch (Exception failed) {
                throw new AssertionError(failed);
            }
        }));
        // (afterwards another one may have them)
        Thread other = new Thread(() -> sender.publishEvent(RingTest::fill));
        other.start();
        other.join();
        sender.close();
        receiver.run(none);
        RingTest.expect(List.of(sender.published(), receiver.completed()), List.of(2L, 2L));
    }

    private static void anyThreadAsksHowFarARingIs() throws Exception {
        Ring<RingTest.Event> ring = RingTest.ring(4, 0, 1);
        ring.senders().get(0).publishEvents(3, RingTest::fill);
        ring.receivers().get(0).receive(0, TimeUnit.SECONDS, (event, sequence, endOfBatch) -> {});
        RingTest.expect(List.of(ring.cursor(), ring.completed(0), ring.completed(1)), List.of(3L, 3L, 0L));
        for (int none : new int[] {2, -1}) {
            RingTest.refused(Refusal.Reason.NO_HANDLER, () -> ring.completed(none));
        }
        Ring<RingTest.Event> several = Ring.openSeveral(RingTest.Event::new, 4, Ring.MAX_LIMIT, 2, 0);
        several.senders().forEach(sender -> sender.publishEvent(RingTest::fill));
        RingTest.expect(several.cursor(), 2L);
        Disruptor<RingTest.Event> disruptor = RingTest.one(4);
        disruptor.start().publishEvents(2, RingTest::fill);
        RingTest.expect(disruptor.cursor(), 2L);
        disruptor.shutdown();
        RingTest.expect(List.of(disruptor.cursor(), disruptor.completed("a")), List.of(2L, 2L));
    }

    static void run() throws Exception {
        anEndIsForOneThreadAtATime();
        anyThreadAsksHowFarARingIs();
    }
}
