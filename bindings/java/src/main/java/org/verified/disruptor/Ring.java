package org.verified.disruptor;

import java.lang.ref.Cleaner;
import java.util.ArrayList;
import java.util.List;
import java.util.concurrent.atomic.AtomicLong;
import java.util.function.Supplier;

/**
 * A ring of slots and its ends, for threads of your own. The events lie in an array of Java's heap and never move. The ring is let go
 * once no end of it is reachable.
 *
 * @param <T> the class of its events
 */
public final class Ring<T> {
    /** How many sequences there may be in a ring at most. */
    public static final long MAX_LIMIT = 1L << 62;

    /** How many bytes lie from one handle of a ring to the next. */
    private static final long HANDLE = 128;

    /** More senders than this are refused, however many. */
    private static final int MOST_SENDERS = 16;

    private static final long ALL = -1;

    private static final Cleaner CLEANER = Cleaner.create();

    final Bell bell = new Bell();
    private final Object[] events;
    private final long halter;
    private final long answer;
    // The handlers that went away before they had every event, as bits, and one more bit for who gave up the whole ring.
    private final AtomicLong gone = new AtomicLong();
    // What a handler of a graph failed with first.
    private volatile HandlerFailed failed;
    private final List<Sender<T>> senders;
    private final List<Receiver<T>> receivers;

    private Ring(int size, long limit, int several, Supplier<? extends T> factory, long... upstreams) {
        int first = Math.max(several, 1);
        int count = first + upstreams.length + 1;
        long handles = Answers.checked(Native.open(size, limit, upstreams, several));
        CLEANER.register(this, () -> Native.free(handles, count));
        events = new Object[size];
        for (int k = 0; k < size; k++) {
            events[k] = factory.get();
        }
        halter = handles + HANDLE * (count - 1);
        answer = halter + HANDLE * count;
        List<Sender<T>> sending = new ArrayList<>();
        for (int k = 0; k < first; k++) {
            sending.add(new Sender<>(this, handles + HANDLE * k, handles + HANDLE * (count + k)));
        }
        List<Receiver<T>> receiving = new ArrayList<>();
        for (int k = first; k < count - 1; k++) {
            receiving.add(new Receiver<>(this, handles + HANDLE * k, handles + HANDLE * (count + k), k - first, upstreams[k - first]));
        }
        senders = List.copyOf(sending);
        receivers = List.copyOf(receiving);
    }

    /** Opens a ring of one sender: handler k follows those whose bits are in the mask {@code upstreams[k]}. */
    public static <T> Ring<T> open(Supplier<? extends T> factory, int size, long limit, long... upstreams) {
        return new Ring<T>(size, limit, 0, factory, upstreams);
    }

    /** Opens a ring of several senders, 1 to 16, which ends with a halt. */
    public static <T> Ring<T> openSeveral(Supplier<? extends T> factory, int size, long limit, int senders, long... upstreams) {
        if (senders <= 0) {
            throw new Refusal(Refusal.Reason.BAD_PRODUCERS.number());
        }
        return new Ring<T>(size, limit, Math.min(senders, MOST_SENDERS + 1), factory, upstreams);
    }

    /** Its senders, each for one thread. The list cannot be changed. */
    public List<Sender<T>> senders() {
        return senders;
    }

    /** The ends of its handlers, each for one thread. The list cannot be changed. */
    public List<Receiver<T>> receivers() {
        return receivers;
    }

    /** How many events the one sender published, or how many several claimed. Any thread may ask that at any time. */
    public synchronized long cursor() {
        return Answers.checked(Native.cursor(halter, answer));
    }

    /**
     * How many events handler k completed. Any thread may ask that at any time. The ring has as many free slots as its size plus the least
     * count of the final handlers, less the cursor: ask that first.
     */
    public synchronized long completed(int handler) {
        return Answers.checked(Native.completed(halter, answer, handler));
    }

    /** Halts the ring: nobody claims from now on. */
    public synchronized void halt() {
        Answers.check(Native.halt(halter));
        bell.ring();
    }

    /** Halts the ring for good, so that nobody waits any more: each handler ends once it finds no event. */
    public void giveUp() {
        giveUp(ALL);
    }

    /** Notes why the ring is about to be halted. */
    void fail(HandlerFailed why) {
        failed = why;
    }

    /** The handler that failed, or null. */
    HandlerFailed failed() {
        return failed;
    }

    /** Halts the ring for handlers that go away before they had every event, so that nobody waits for them. */
    void giveUp(long handlers) {
        gone.getAndUpdate(all -> all | handlers);
        halt();
    }

    /** Where those who follow these are cut: at the least count of those of them that are gone, or at none where all is given up. */
    long cut(long upstreams) {
        long missing = gone.get() & upstreams;
        long cut = missing < 0 ? 0 : Long.MAX_VALUE;
        for (int k = 0; missing > 0 && k < receivers.size(); k++) {
            if ((missing >> k & 1) == 1) {
                cut = Math.min(cut, receivers.get(k).completed());
            }
        }
        return cut;
    }

    int size() {
        return events.length;
    }

    /** The event of a sequence. */
    @SuppressWarnings("unchecked")
    T get(long sequence) {
        return (T) events[(int) sequence & (events.length - 1)];
    }
}
