import java.util.List;
import java.util.concurrent.CountDownLatch;

/**
 * How long an event takes to another thread and back: {@code RoundTrips LIBRARY WAY TRIPS} sends an event through one ring to a handler
 * that answers through another, and the next as soon as the answer is there; twice to be warm and once more. It prints how many
 * nanoseconds each of the last TRIPS took. LIBRARY and WAY are those of {@link Latency}.
 */
public final class RoundTrips {
    private static final int SLOTS = 1024;
    private static final int ROUNDS = 3;

    static final class Event {
        long sent;
    }

    private final String library;
    private final String way;
    private final long[] took;
    private CountDownLatch isDone;
    private Exchange.Sending ping;
    private Exchange.Sending pong;

    private RoundTrips(String library, String way, int trips) {
        this.library = library;
        this.way = way;
        this.took = new long[trips];
    }

    private Exchange<Event> start(Exchange.Handler<Event> handler) throws ReflectiveOperationException {
        return Exchange.start(library, way, new Exchange.Plan<>(Event::new, SLOTS, 0, new int[][] {{}}, List.of(handler)));
    }

    /** Notes a trip, and begins the next. */
    private void answered(Event event, long sequence) {
        took[(int) sequence] = System.nanoTime() - event.sent;
        if (sequence + 1 < took.length) {
            ping.publish(1);
        } else {
            isDone.countDown();
        }
    }

    /** One round; the ends are used by a thread at a time, which hands them on by the rings themselves. */
    private void play() throws Exception {
        isDone = new CountDownLatch(1);
        long[] sent = new long[1];
        Exchange<Event> there = start((event, sequence) -> {
            sent[0] = event.sent;
            pong.publish(1);
        });
        Exchange<Event> back = start(this::answered);
        ping = there.sending(0, (event, sequence) -> event.sent = System.nanoTime());
        pong = back.sending(0, (event, sequence) -> event.sent = sent[0]);
        ping.publish(1);
        isDone.await();
        there.awaitAll();
        back.awaitAll();
        there.close();
        back.close();
    }

    public static void main(String[] words) throws Exception {
        RoundTrips trips = new RoundTrips(words[0], words[1], Integer.parseInt(words[2]));
        for (int round = 0; round < ROUNDS; round++) {
            trips.play();
        }
        Times.print(trips.took);
    }
}
