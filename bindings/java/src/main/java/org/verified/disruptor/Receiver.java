package org.verified.disruptor;

import java.lang.invoke.VarHandle;
import java.lang.ref.Reference;
import java.util.concurrent.TimeUnit;
import java.util.concurrent.atomic.AtomicLong;

/**
 * The end of one handler, for one thread at a time, which is shown every event after those that it follows had it.
 *
 * <p>Where the handler throws, the events before the one at which it did are completed. If it is run again, that one counts as
 * handled, and it goes on after it. A handler that receives by its own end meanwhile is refused with an
 * {@link IllegalStateException}, and so is a thread that does so while another one does.
 *
 * <p>Until then all others wait for it. Run it in a {@code try (receiver)}, which gives it up where it ends before it is drained.
 *
 * @param <T> the class of the events
 */
public final class Receiver<T> implements AutoCloseable {
    private final Ring<T> ring;
    private final long handle;
    private final long answer;
    private final Waiting waiting;
    private final AtomicLong completed = new AtomicLong();
    // Its own bit among those of the ring's handlers, and those that it waits for.
    private final long own;
    private final long upstreams;
    private long shown;
    private long taken;
    private boolean isDrained;
    private final Turn turn = new Turn();

    /** The bit of who gives up the whole ring. */
    private static final long WHOLE = Long.MIN_VALUE;

    Receiver(Ring<T> ring, long handle, long answer, int place, long upstreams) {
        this.ring = ring;
        this.handle = handle;
        this.answer = answer;
        own = 1L << place;
        this.upstreams = upstreams | WHOLE;
        waiting = new Waiting(ring.size(), ring.bell);
    }

    private void complete(long upto) {
        if (completed.getPlain() < upto) {
            VarHandle.releaseFence();
            int refused = Native.complete(handle, upto);
            Reference.reachabilityFence(this);
            Answers.check(refused);
            completed.setRelease(upto);
            ring.bell.ring();
        }
    }

    /** Has the end until what it finds is shown. */
    private void begin() {
        if (!turn.begin()) {
            throw new IllegalStateException("a handler receives by its own end");
        }
    }

    /** Looks for events where none are in hand, and answers whether it still has none and more may come. */
    private boolean lacks() throws Broken {
        complete(shown);
        if (shown < taken || isDrained) {
            return false;
        }
        // (it asks for its cut before it looks, so that it misses no event)
        long cut = ring.cut(upstreams);
        long found = Native.poll(handle, answer, ring.size());
        Reference.reachabilityFence(this);
        long count = Answers.checkedPoll(found);
        if (count > 0) {
            VarHandle.acquireFence();
            waiting.found(count);
            taken += count;
            return false;
        }
        isDrained = count == Answers.DRAINED;
        if (isDrained) {
            return false;
        }
        if (completed.getPlain() >= cut) {
            throw new Broken(ring);
        }
        return true;
    }

    /** Halts the ring for this handler, which goes away before it had every event, so that nobody waits for it. */
    public void giveUp() {
        ring.giveUp(own);
    }

    /** Gives up where it is not drained. */
    @Override
    public void close() {
        if (!isDrained) {
            giveUp();
        }
    }

    /** Shows the events that are in hand, and answers how many. */
    private int show(EventHandler<? super T> handler) throws Exception {
        long first = shown;
        long sequence = shown;
        long end = taken;
        try {
            for (; sequence < end; sequence++) {
                handler.onEvent(ring.get(sequence), sequence, sequence + 1 == end);
            }
        } catch (Throwable thrown) {
            complete(sequence);
            shown = sequence + 1;
            throw thrown;
        }
        shown = end;
        return (int) (end - first);
    }

    /** Shows the handler every event until the ring is drained. What it throws passes. */
    public void run(EventHandler<? super T> handler) throws Exception {
        begin();
        try {
            while (!isDrained) {
                while (lacks()) {
                    waiting.await();
                }
                show(handler);
            }
        } finally {
            turn.end();
        }
    }

    /**
     * Shows the handler the next events, once there are any, and completes them. It answers how many: none where the time is up, or
     * where the ring is drained ({@link #isDrained}). It may take ten milliseconds more, where it sleeps.
     *
     * @param timeout how long it waits at most
     */
    public int receive(long timeout, TimeUnit unit, EventHandler<? super T> handler) throws Exception {
        begin();
        try {
            long begun = System.nanoTime();
            while (lacks()) {
                if (System.nanoTime() - begun >= unit.toNanos(timeout)) {
                    waiting.end();
                    return 0;
                }
                waiting.await();
            }
            int count = show(handler);
            complete(shown);
            return count;
        } finally {
            turn.end();
        }
    }

    /** Whether it had every event, and none comes any more. */
    public boolean isDrained() {
        return isDrained;
    }

    /** How many events it completed. Any thread may ask that at any time; it is never ahead of the end. */
    public long completed() {
        return completed.get();
    }
}
