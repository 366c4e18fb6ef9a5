package org.verified.disruptor;

/** What is done with each event. */
@FunctionalInterface
public interface EventHandler<T> {
    /** Handles an event where it lies; it keeps none. The last event that is there for now is the end of a batch. */
    void onEvent(T event, long sequence, boolean endOfBatch) throws Exception;
}
