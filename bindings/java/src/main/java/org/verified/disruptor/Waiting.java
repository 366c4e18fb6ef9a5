package org.verified.disruptor;

/** How a thread waits that looks again and again: by pauses that tune themselves, by yielding, and in the end asleep. */
final class Waiting {
    private static final int PAUSED_LOOKS = 4;
    private static final int YIELDING_LOOKS = 200;
    private static final int MOST_PAUSES = 1024;

    private final long room;
    private final Bell bell;
    private int pauses = 1;
    private int looks;
    private boolean isListening;
    private long heard;
    // How many events a sender found room for since it last waited.
    private long found;

    Waiting(long room, Bell bell) {
        this.room = room;
        this.bell = bell;
    }

    /** Waits after a look that found nothing. */
    void await() {
        if (found > 0) {
            found(found);
            found = 0;
        }
        if (looks < PAUSED_LOOKS) {
            for (int k = 0; k < pauses; k++) {
                Thread.onSpinWait();
            }
        } else if (looks < YIELDING_LOOKS) {
            Thread.yield();
        } else {
            if (isListening) {
                bell.sleep(heard);
                stopListening();
            }
            heard = bell.listen();
            isListening = true;
            return;
        }
        looks++;
    }

    /** Begins anew, after a look that found so many events. */
    void found(long count) {
        if (looks == 0) {
            return;
        }
        looks = 0;
        stopListening();
        if (count > room / 3 || count < pauses / 64) {
            pauses = Math.max(pauses / 2, 1);
        } else if (count < room / 6 && count >= pauses / 32) {
            pauses = Math.min(pauses * 2, MOST_PAUSES);
        }
    }

    /** Ends a wait that found nothing in its time, which says nothing of the pauses. */
    void end() {
        looks = 0;
        stopListening();
    }

    /** The same as {@link #found} after a claim: a sender claims again at once, so what counts is how many found room until it waits again. */
    void foundRoom(long count) {
        found += count;
        stopListening();
    }

    private void stopListening() {
        if (isListening) {
            isListening = false;
            bell.stopListening();
        }
    }
}
