package org.verified.disruptor;

import java.lang.invoke.VarHandle;
import java.lang.ref.Reference;
import java.util.concurrent.TimeUnit;
import java.util.concurrent.atomic.AtomicLong;

/**
 * An end that fills events where they lie and publishes them, for one thread at a time: one that uses it while another does is refused
 * with an {@link IllegalStateException}. A translator that publishes by the same end is refused with {@code OPEN_CLAIM}.
 *
 * @param <T> the class of the events
 */
public final class Sender<T> {
    private final Ring<T> ring;
    private final long handle;
    private final long answer;
    private final Waiting waiting;
    private final AtomicLong published = new AtomicLong();
    private final Turn turn = new Turn();

    Sender(Ring<T> ring, long handle, long answer) {
        this.ring = ring;
        this.handle = handle;
        this.answer = answer;
        waiting = new Waiting(ring.size(), ring.bell);
    }

    /** Has the end from before a claim until that is published. */
    private void begin() {
        if (!turn.begin()) {
            throw new Refusal(Refusal.Reason.OPEN_CLAIM.number());
        }
    }

    /** The first of n sequences, or less than 0 where there is no room now, or another sender came first. */
    private long tryClaim(long n) {
        long first = Native.claim(handle, answer, n);
        Reference.reachabilityFence(this);
        if (first >= 0) {
            VarHandle.acquireFence();
            return first;
        }
        if (first == -Refusal.Reason.NO_ROOM.number() || first == -Refusal.Reason.CONTENDED.number()) {
            return first;
        }
        if (first == -Refusal.Reason.HALTED.number()) {
            // (it never claims again, so the ring of one sender may as well be closed: nobody waits for one that is forgotten)
            Native.close(handle);
            Reference.reachabilityFence(this);
            ring.bell.ring();
            throw new Refusal((int) -first, ring.failed());
        }
        throw new Refusal((int) -first);
    }

    private long claim(long n) {
        for (;;) {
            long first = tryClaim(n);
            if (first >= 0) {
                return first;
            }
            waiting.await();
        }
    }

    /** Publishes what lies there, also where the filling throws, so that the ring stays in order. */
    private void fillAndPublish(long first, long n, EventTranslator<? super T> translator) {
        waiting.foundRoom(n);
        try {
            for (long sequence = first; sequence < first + n; sequence++) {
                translator.translateTo(ring.get(sequence), sequence);
            }
        } finally {
            VarHandle.releaseFence();
            int refused = Native.publish(handle, first, first + n - 1);
            Reference.reachabilityFence(this);
            Answers.check(refused);
            published.setRelease(published.getPlain() + n);
            ring.bell.ring();
        }
    }

    /** Publishes an event, once there is room for it and it is filled. An interrupt ends no wait for room; a halt does. */
    public void publishEvent(EventTranslator<? super T> translator) {
        publishEvents(1, translator);
    }

    /** Publishes n events together, once there is room for all and each is filled. */
    public void publishEvents(int n, EventTranslator<? super T> translator) {
        begin();
        try {
            fillAndPublish(claim(n), n, translator);
        } finally {
            turn.end();
        }
    }

    private boolean triesOnce(int n, EventTranslator<? super T> translator) {
        long first = tryClaim(n);
        if (first < 0) {
            return false;
        }
        fillAndPublish(first, n, translator);
        return true;
    }

    /** The same, or answers false where there is no room now, or another sender came first. */
    public boolean tryPublishEvents(int n, EventTranslator<? super T> translator) {
        begin();
        try {
            return triesOnce(n, translator);
        } finally {
            turn.end();
        }
    }

    /**
     * The same, or answers false where that is so when the time is up. It may take ten milliseconds more, where it sleeps.
     *
     * @param timeout how long it waits at most
     */
    public boolean tryPublishEvents(int n, long timeout, TimeUnit unit, EventTranslator<? super T> translator) {
        begin();
        try {
            long begun = System.nanoTime();
            while (!triesOnce(n, translator)) {
                if (System.nanoTime() - begun >= unit.toNanos(timeout)) {
                    waiting.foundRoom(0);
                    return false;
                }
                waiting.await();
            }
            return true;
        } finally {
            turn.end();
        }
    }

    /** How many events it published. Any thread may ask that at any time; it is never ahead of the end. */
    public long published() {
        return published.get();
    }

    /** Closes the ring of one sender: no event comes any more. A sender that is refused with {@code HALTED} has done so. */
    public void close() {
        begin();
        try {
            int refused = Native.close(handle);
            Reference.reachabilityFence(this);
            Answers.check(refused);
            ring.bell.ring();
        } finally {
            turn.end();
        }
    }
}
