package org.verified.disruptor;

import static java.lang.foreign.ValueLayout.JAVA_INT;
import static java.lang.foreign.ValueLayout.JAVA_LONG;

import java.lang.foreign.FunctionDescriptor;
import java.lang.foreign.Linker;
import java.lang.foreign.MemoryLayout;
import java.lang.foreign.MemorySegment;
import java.lang.foreign.SymbolLookup;
import java.lang.invoke.MethodHandle;
import java.util.Arrays;

/**
 * The calls of the proved library: those of an end by Java's own calls of foreign functions. None of them waits or calls back, so they
 * skip the change of the thread's state. A pointer comes with how many things lie there.
 */
final class Native {
    private static final int BATCH = 0;

    /** Where a poll leaves the count of its offer. */
    private static final long COUNT = 16;

    // All memory, for what a call left at an address.
    private static final MemorySegment MEMORY = MemorySegment.NULL.reinterpret(Long.MAX_VALUE);

    private static final MethodHandle CLAIM;
    private static final MethodHandle PUBLISH;
    private static final MethodHandle CLOSE;
    private static final MethodHandle POLL;
    private static final MethodHandle COMPLETE;
    private static final MethodHandle HALT;
    private static final MethodHandle CURSOR;
    private static final MethodHandle COMPLETED;

    static {
        System.load(Library.path());
        CLAIM = call("claim", 5);
        PUBLISH = call("publish_slots", 4);
        CLOSE = call("close", 2);
        POLL = call("poll_slots", 5);
        COMPLETE = call("complete", 3);
        HALT = call("halt", 2);
        CURSOR = call("cursor", 4);
        COMPLETED = call("completed", 5);
    }

    private Native() {}

    /** A call with so many numbers and addresses, which answers a number. */
    private static MethodHandle call(String name, int count) {
        var layouts = new MemoryLayout[count];
        Arrays.fill(layouts, JAVA_LONG);
        var symbol = SymbolLookup.loaderLookup().find("disruptor_" + name + "_at").orElseThrow();
        return Linker.nativeLinker().downcallHandle(symbol, FunctionDescriptor.of(JAVA_INT, layouts), Linker.Option.critical(false));
    }

    static native long open(long size, long limit, long[] upstreams, int senders);

    static native void free(long handles, int count);

    static long claim(long sender, long answer, long n) {
        try {
            int refused = (int) CLAIM.invokeExact(sender, 1L, n, answer, 1L);
            return refused == 0 ? MEMORY.get(JAVA_LONG, answer) : -refused;
        } catch (Throwable thrown) {
            throw new AssertionError(thrown);
        }
    }

    static int publish(long sender, long lo, long hi) {
        try {
            return (int) PUBLISH.invokeExact(sender, 1L, lo, hi);
        } catch (Throwable thrown) {
            throw new AssertionError(thrown);
        }
    }

    static int close(long sender) {
        try {
            return (int) CLOSE.invokeExact(sender, 1L);
        } catch (Throwable thrown) {
            throw new AssertionError(thrown);
        }
    }

    static long poll(long receiver, long answer, long room) {
        try {
            int refused = (int) POLL.invokeExact(receiver, 1L, room, answer, 1L);
            if (refused != 0) {
                return Answers.REFUSED_POLL - refused;
            }
            int kind = MEMORY.get(JAVA_INT, answer);
            return kind == BATCH ? MEMORY.get(JAVA_LONG, answer + COUNT) : -kind;
        } catch (Throwable thrown) {
            throw new AssertionError(thrown);
        }
    }

    static int complete(long receiver, long upto) {
        try {
            return (int) COMPLETE.invokeExact(receiver, 1L, upto);
        } catch (Throwable thrown) {
            throw new AssertionError(thrown);
        }
    }

    static int halt(long halter) {
        try {
            return (int) HALT.invokeExact(halter, 1L);
        } catch (Throwable thrown) {
            throw new AssertionError(thrown);
        }
    }

    static long cursor(long halter, long answer) {
        try {
            int refused = (int) CURSOR.invokeExact(halter, 1L, answer, 1L);
            return refused == 0 ? MEMORY.get(JAVA_LONG, answer) : -refused;
        } catch (Throwable thrown) {
            throw new AssertionError(thrown);
        }
    }

    static long completed(long halter, long answer, long handler) {
        try {
            int refused = (int) COMPLETED.invokeExact(halter, 1L, handler, answer, 1L);
            return refused == 0 ? MEMORY.get(JAVA_LONG, answer) : -refused;
        } catch (Throwable thrown) {
            throw new AssertionError(thrown);
        }
    }
}
