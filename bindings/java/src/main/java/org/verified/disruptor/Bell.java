package org.verified.disruptor;

import java.util.concurrent.atomic.AtomicInteger;

/**
 * Wakes the threads of a ring that sleep. That no change is missed is argued: a thread first says that it sleeps, and then looks once
 * more; who changed something asks afterwards whether anybody sleeps. All these steps are sequentially consistent, those of the
 * library too.
 */
final class Bell {
    private static final long LONGEST_SLEEP = 10;

    private final AtomicInteger sleepers = new AtomicInteger();
    private long rings;

    void ring() {
        if (sleepers.get() > 0) {
            synchronized (this) {
                rings++;
                notifyAll();
            }
        }
    }

    synchronized long listen() {
        sleepers.incrementAndGet();
        return rings;
    }

    void stopListening() {
        sleepers.decrementAndGet();
    }

    /** Sleeps until a ring after the listening that answered {@code heard}, ten milliseconds at most. */
    synchronized void sleep(long heard) {
        if (rings == heard) {
            try {
                wait(LONGEST_SLEEP);
            } catch (InterruptedException interrupted) {
                // (one that is interrupted looks again without sleeping, and stays interrupted)
                Thread.currentThread().interrupt();
            }
        }
    }
}
