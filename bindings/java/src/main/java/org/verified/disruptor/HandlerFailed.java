package org.verified.disruptor;

/** A handler threw, and so the ring was halted: the cause is what it threw. Where more did, it suppresses one of these for each. */
public final class HandlerFailed extends RuntimeException {
    private static final long serialVersionUID = 1;
    private final String handler;

    HandlerFailed(String handler, Throwable cause) {
        super("the handler " + handler + " threw", cause);
        this.handler = handler;
    }

    /** The name of the handler. */
    public String handler() {
        return handler;
    }
}
