package org.verified.disruptor;

/** What fills an event before it is published. */
@FunctionalInterface
public interface EventTranslator<T> {
    /** Fills an event where it lies: it has what an earlier one left there. */
    void translateTo(T event, long sequence);
}
