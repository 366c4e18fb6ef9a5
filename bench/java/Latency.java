import java.util.ArrayList;
import java.util.List;
import java.util.concurrent.ArrayBlockingQueue;

/**
 * How long an event takes through a pipeline of three: {@code Latency LIBRARY WAY EVENTS NANOS} sends an event each so many nanoseconds,
 * twice to be warm and once more, and prints how many nanoseconds each of the last EVENTS took, from before its claim until the third
 * handler has it. LIBRARY is {@code slots}, our ring, by {@code parking}; {@code lmax}, LMAX's, by {@code yielding}, {@code spinning} or
 * {@code blocking}; or {@code queue}, an ArrayBlockingQueue before each of the three, which blocks.
 */
public final class Latency {
    private static final int SLOTS = 1024;
    private static final int STAGES = 3;
    private static final int ROUNDS = 3;

    static final class Event {
        long sent;
    }

    private final int events;
    private final long gap;
    private final long[] took;

    private Latency(int events, long gap) {
        this.events = events;
        this.gap = gap;
        this.took = new long[events];
    }

    private void throughRing(String library, String way) throws Exception {
        Exchange.Handler<Event> passing = (event, sequence) -> { };
        Exchange.Handler<Event> noting = (event, sequence) -> took[(int) sequence] = System.nanoTime() - event.sent;
        int[][] upstreams = {{}, {0}, {1}};
        Exchange<Event> exchange = Exchange.start(
                library, way, new Exchange.Plan<>(Event::new, SLOTS, 0, upstreams, List.of(passing, passing, noting)));
        long[] sent = new long[1];
        Exchange.Sending sending = exchange.sending(0, (event, sequence) -> event.sent = sent[0]);
        long due = System.nanoTime();
        for (int k = 0; k < events; k++) {
            due += gap;
            sent[0] = Times.at(due);
            sending.publish(1);
        }
        exchange.awaitAll();
        exchange.close();
    }

    /** A thread that hands on what comes, or notes how long it took. */
    private Thread stage(ArrayBlockingQueue<Long> from, ArrayBlockingQueue<Long> to) {
        return new Thread(() -> {
            try {
                for (int k = 0; k < events; k++) {
                    long sent = from.take();
                    if (to == null) {
                        took[k] = System.nanoTime() - sent;
                    } else {
                        to.put(sent);
                    }
                }
            } catch (InterruptedException interrupted) {
                throw new IllegalStateException(interrupted);
            }
        });
    }

    private void throughQueues() throws Exception {
        List<ArrayBlockingQueue<Long>> queues = new ArrayList<>();
        List<Thread> threads = new ArrayList<>();
        for (int k = 0; k < STAGES; k++) {
            queues.add(new ArrayBlockingQueue<>(SLOTS));
        }
        for (int k = 0; k < STAGES; k++) {
            threads.add(stage(queues.get(k), k + 1 < STAGES ? queues.get(k + 1) : null));
        }
        threads.forEach(Thread::start);
        long due = System.nanoTime();
        for (int k = 0; k < events; k++) {
            due += gap;
            queues.get(0).put(Times.at(due));
        }
        for (Thread thread : threads) {
            thread.join();
        }
    }

    public static void main(String[] words) throws Exception {
        Latency latency = new Latency(Integer.parseInt(words[2]), Long.parseLong(words[3]));
        for (int round = 0; round < ROUNDS; round++) {
            if (words[0].equals("queue")) {
                latency.throughQueues();
            } else {
                latency.throughRing(words[0], words[1]);
            }
        }
        Times.print(latency.took);
    }
}
