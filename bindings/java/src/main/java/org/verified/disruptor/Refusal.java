package org.verified.disruptor;

/**
 * A call was refused, and changed nothing; but a claim that is refused with {@code HALTED} closes a ring of one sender. Where that is
 * since a handler failed, {@link #getCause} is the {@link HandlerFailed}, and nothing is suppressed by the refusal.
 */
public final class Refusal extends RuntimeException {
    private static final long serialVersionUID = 1;

    /** Why it was refused. */
    public enum Reason {
        NO_ROOM(1, "a final handler has not completed the events in the slots: wait, and claim again"),
        HALTED(2, "the ring is halted, for good: publish what is claimed, and end"),
        BAD_COUNT(3, "none, or more than there can be; or not a receiver for each handler"),
        EXHAUSTED(4, "the claim goes past the limit of sequences"),
        NOT_CLAIMED(5, "nobody claimed the sequence, or another sender did"),
        ALREADY_PUBLISHED(6, "the sequence is published, and its event may be read by then"),
        NOT_WRITTEN(7, "a sequence of the stretch has no event yet"),
        OUT_OF_ORDER(8, "an earlier sequence is not published"),
        NOT_TAKEN(9, "the handler has not taken so many events"),
        BEHIND(10, "the handler has completed more already"),
        NO_HANDLER(12, "the ring has no handler of that number"),
        CONTENDED(16, "another sender claimed meanwhile: claim again"),
        TOO_MANY(25, "there would be more than 16 handlers"),
        NO_HANDLERS(26, "there would be no handler"),
        BAD_SIZE(31, "the size is no power of two from 1 to 65536"),
        BAD_PRODUCERS(32, "there would be no senders, or more than 16"),
        BAD_LIMIT(33, "the limit of sequences is 0 or above 2^62"),
        NO_MEMORY(40, "an allocation failed"),
        OPEN_CLAIM(41, "a claimed sequence is not published"),
        NOT_OPEN(61, "the handle is zero, or was freed"),
        WRONG_END(62, "the handle has an end of another kind"),
        STILL_OPEN(63, "a handle that would be opened is open: free it first"),
        BAD_ORDER(64, "a handler's mask names itself, or one after it"),
        BAD_POINTER(65, "a pointer is null or not aligned, or an array is longer than memory"),
        BAD_LENGTH(66, "there are not as many bytes as an event of the ring has"),
        NOT_IN_HAND(67, "the handler has not taken the event, or has completed it");

        private final int number;
        private final String text;

        Reason(int number, String text) {
            this.number = number;
            this.text = text;
        }

        /** Its number, which stays the same in every release. */
        public int number() {
            return number;
        }

        /** Its name as the other languages have it, and what it means. */
        private String message() {
            return name().toLowerCase(java.util.Locale.ROOT).replace('_', '-') + ": " + text;
        }

        static Reason of(int number) {
            for (Reason reason : values()) {
                if (reason.number == number) {
                    return reason;
                }
            }
            throw new AssertionError("no refusal has the number " + number);
        }
    }

    private final Reason reason;

    Refusal(int number) {
        this(number, null);
    }

    Refusal(int number, HandlerFailed cause) {
        // (what shuts the disruptor down throws that cause too: one that is suppressed by what it caused goes round in the trace)
        super(Reason.of(number).message(), cause, cause == null, true);
        reason = Reason.of(number);
    }

    /** Why it was refused. */
    public Reason reason() {
        return reason;
    }
}
