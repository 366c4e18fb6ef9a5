package org.verified.disruptor;

/** What the calls of the library answer: a refusal by its number, below zero where the answer is a count. */
final class Answers {
    /** A poll that found no event answers one of these. */
    static final int GATING = -1;

    static final int IDLE = -2;
    static final int DRAINED = -3;

    /** A poll that is refused answers this less the number. */
    static final int REFUSED_POLL = -16;

    private Answers() {}

    static void check(int refused) {
        if (refused != 0) {
            throw new Refusal(refused);
        }
    }

    /** The answer of a call that answers a count. */
    static long checked(long answer) {
        if (answer < 0) {
            throw new Refusal((int) -answer);
        }
        return answer;
    }

    /** The answer of a poll. */
    static long checkedPoll(long answer) {
        if (answer < REFUSED_POLL) {
            throw new Refusal((int) (REFUSED_POLL - answer));
        }
        return answer;
    }
}
