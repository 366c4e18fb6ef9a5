package org.verified.disruptor;

import java.util.concurrent.atomic.AtomicLong;

/** Keeps an end to one thread at a time: two at once would corrupt the memory of the library, and nothing else would tell. */
final class Turn {
    private static final long NOBODY = 0;

    // The number of the thread that has the end. (a reference to it would cost the collector's barrier at each store)
    private final AtomicLong user = new AtomicLong(NOBODY);

    /** Has the end from now on, or answers false where this thread has it already. */
    boolean begin() {
        long own = Thread.currentThread().getId();
        long other = user.compareAndExchange(NOBODY, own);
        if (other != NOBODY && other != own) {
            throw new IllegalStateException(
                    "an end is for one thread at a time: thread " + own + " would use it while thread " + other + " does");
        }
        return other == NOBODY;
    }

    void end() {
        user.setRelease(NOBODY);
    }
}
