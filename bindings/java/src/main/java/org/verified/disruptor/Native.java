package org.verified.disruptor;

/**
 * The calls of the proved library, by JNI; from Java 22 on the jar has another class in place of this one. {@link Answers} says what
 * they answer. A call of an end may use the memory at {@code answer}, which is the end's.
 */
final class Native {
    static {
        System.load(Library.path());
    }

    private Native() {}

    static native long open(long size, long limit, long[] upstreams, int senders);

    static native void free(long handles, int count);

    static native long claim(long sender, long answer, long n);

    static native int publish(long sender, long lo, long hi);

    static native int close(long sender);

    static native long poll(long receiver, long answer, long room);

    static native int complete(long receiver, long upto);

    static native int halt(long halter);

    static native long cursor(long halter, long answer);

    static native long completed(long halter, long answer, long handler);
}
