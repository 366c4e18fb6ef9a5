package org.verified.disruptor;

/**
 * A handler went away before it had every event: the ring is halted, and those who follow it wait no longer once they had what it
 * completed.
 */
public final class Broken extends Exception {
    private static final long serialVersionUID = 1;

    private final transient Ring<?> ring;

    Broken(Ring<?> ring) {
        super("a handler went away before it had every event");
        this.ring = ring;
    }

    /** Whether it is of this ring, and of no other that a handler used. */
    boolean isOf(Ring<?> other) {
        return ring == other;
    }
}
