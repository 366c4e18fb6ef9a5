package org.verified.disruptor;

import java.util.ArrayList;
import java.util.Arrays;
import java.util.List;
import java.util.function.Supplier;

/**
 * A graph of handlers by their names, each on a thread of its own, over a ring of slots. Handlers are added in order, and each follows
 * those that the last {@code after} named, or none.
 *
 * @param <T> the class of the events
 */
public final class Disruptor<T> implements AutoCloseable {
    private static final int MOST_HANDLERS = 16;
    private static final int MOST_SLOTS = 65_536;

    private static final class Handler<T> {
        final String name;
        final EventHandler<? super T> handler;
        final boolean isChanging;
        final long upstreams;
        final long allBefore;

        Handler(String name, EventHandler<? super T> handler, boolean isChanging, long upstreams, long allBefore) {
            this.name = name;
            this.handler = handler;
            this.isChanging = isChanging;
            this.upstreams = upstreams;
            this.allBefore = allBefore;
        }
    }

    private final Supplier<? extends T> factory;
    private final int size;
    private final List<Handler<T>> handlers = new ArrayList<>();
    private final List<Thread> threads = new ArrayList<>();
    private long after;
    private Ring<T> ring;
    private Sender<T> sender;
    private volatile HandlerFailed failed;

    /** For a ring of {@code size} slots, a power of two up to 65,536. The factory makes the event of each. */
    public Disruptor(Supplier<? extends T> factory, int size) {
        if (size < 1 || size > MOST_SLOTS || Integer.bitCount(size) != 1) {
            throw new Refusal(Refusal.Reason.BAD_SIZE.number());
        }
        this.factory = factory;
        this.size = size;
    }

    private Disruptor<T> add(String name, EventHandler<? super T> handler, boolean isChanging) {
        if (ring != null) {
            throw new IllegalStateException("it has started");
        }
        if (handlers.stream().anyMatch(it -> it.name.equals(name))) {
            throw new IllegalArgumentException("two handlers have the name " + name);
        }
        if (handlers.size() == MOST_HANDLERS) {
            throw new Refusal(Refusal.Reason.TOO_MANY.number());
        }
        long all = after;
        for (int k = 0; k < handlers.size(); k++) {
            all |= (after >> k & 1) == 1 ? handlers.get(k).allBefore : 0;
        }
        handlers.add(new Handler<>(name, handler, isChanging, after, all));
        return this;
    }

    /** Adds a handler that reads events. */
    public Disruptor<T> handle(String name, EventHandler<? super T> handler) {
        return add(name, handler, false);
    }

    /** Adds a handler that changes events. It must have them alone: each other handler comes before it or after it. */
    public Disruptor<T> handleChanging(String name, EventHandler<? super T> handler) {
        return add(name, handler, true);
    }

    /** The handlers that come next follow these. */
    public Disruptor<T> after(String... names) {
        long mask = 0;
        for (String name : names) {
            mask |= 1L << place(name);
        }
        after = mask;
        return this;
    }

    private int place(String name) {
        for (int k = 0; k < handlers.size(); k++) {
            if (handlers.get(k).name.equals(name)) {
                return k;
            }
        }
        throw new IllegalArgumentException("no handler before has the name " + name);
    }

    /** Handlers that {@link #handleEventsWith} added together, for those that follow all of them. */
    public final class EventHandlerGroup {
        private final long members;

        private EventHandlerGroup(long members) {
            this.members = members;
        }

        /** Adds handlers that follow each of these. */
        @SafeVarargs
        @SuppressWarnings("varargs")
        public final EventHandlerGroup then(EventHandler<? super T>... next) {
            return addAll(members, List.of(next));
        }
    }

    /**
     * Adds handlers that follow none. Their names are {@code handler-} and how many were added before, from {@code handler-0} on: for
     * {@link #completed}, {@link #after}, and {@link HandlerFailed}. Whether one changes events is not checked.
     */
    @SafeVarargs
    @SuppressWarnings("varargs")
    public final EventHandlerGroup handleEventsWith(EventHandler<? super T>... next) {
        return addAll(0, List.of(next));
    }

    private EventHandlerGroup addAll(long upstreams, List<EventHandler<? super T>> next) {
        long members = 0;
        long named = after;
        after = upstreams;
        try {
            for (EventHandler<? super T> handler : next) {
                members |= 1L << handlers.size();
                add("handler-" + handlers.size(), handler, false);
            }
        } finally {
            after = named;
        }
        return new EventHandlerGroup(members);
    }

    private void checkChanging() {
        for (int k = 0; k < handlers.size(); k++) {
            for (int other = 0; handlers.get(k).isChanging && other < handlers.size(); other++) {
                boolean isOrdered = (handlers.get(k).allBefore >> other & 1) == 1 || (handlers.get(other).allBefore >> k & 1) == 1;
                if (k != other && !isOrdered) {
                    throw new IllegalArgumentException(
                            handlers.get(k).name + " would change events that another handler reads at the same time");
                }
            }
        }
    }

    private void work(Handler<T> handler, Receiver<T> receiver, Ring<T> own) {
        try {
            receiver.run(handler.handler);
        } catch (Throwable thrown) {
            // (where one that it follows is gone, that one is named)
            if (!(thrown instanceof Broken) || !((Broken) thrown).isOf(own)) {
                fail(handler.name, thrown);
            }
            receiver.giveUp();
        }
    }

    private synchronized void fail(String name, Throwable thrown) {
        HandlerFailed own = new HandlerFailed(name, thrown);
        if (failed == null) {
            failed = own;
            ring.fail(failed);
        } else {
            failed.addSuppressed(own);
        }
    }

    private Ring<T> open(int senders) {
        if (ring != null) {
            throw new IllegalStateException("it has started");
        }
        checkChanging();
        long[] upstreams = handlers.stream().mapToLong(it -> it.upstreams).toArray();
        ring = senders == 0
                ? Ring.open(factory, size, Ring.MAX_LIMIT, upstreams)
                : Ring.openSeveral(factory, size, Ring.MAX_LIMIT, senders, upstreams);
        for (int k = 0; k < handlers.size(); k++) {
            Handler<T> handler = handlers.get(k);
            Receiver<T> receiver = ring.receivers().get(k);
            threads.add(new Thread(() -> work(handler, receiver, ring), handler.name));
        }
        startAll();
        return ring;
    }

    /** Where one cannot be started, nobody waits for its handler. */
    private void startAll() {
        boolean allStarted = false;
        try {
            threads.forEach(Thread::start);
            allStarted = true;
        } finally {
            if (!allStarted) {
                ring.giveUp();
            }
        }
    }

    /** Opens the ring, and starts a thread for each handler. */
    public Sender<T> start() {
        sender = open(0).senders().get(0);
        return sender;
    }

    /** The same with several senders, 1 to 16, each for a thread of its own. They end before the disruptor is shut down. */
    public List<Sender<T>> startSeveral(int senders) {
        if (senders <= 0) {
            throw new Refusal(Refusal.Reason.BAD_PRODUCERS.number());
        }
        return open(senders).senders();
    }

    private static <E> E started(E end) {
        if (end == null) {
            throw new IllegalStateException("it has not started, or has several senders");
        }
        return end;
    }

    /**
     * Publishes an event by the one sender, once there is room for it and it is filled. An interrupt ends no wait for room. A thread that
     * publishes while another one does is refused with an {@link IllegalStateException}: {@link #startSeveral} gives each a sender.
     */
    public void publishEvent(EventTranslator<? super T> translator) {
        started(sender).publishEvent(translator);
    }

    /** Publishes n events together. */
    public void publishEvents(int n, EventTranslator<? super T> translator) {
        started(sender).publishEvents(n, translator);
    }

    /** How many events are published, or how many several senders claimed. Any thread may ask that once it has started. */
    public long cursor() {
        return started(ring).cursor();
    }

    /**
     * How many events the handler with this name completed, by whole batches. Any thread may ask that once it has started.
     */
    public long completed(String name) {
        return started(ring).receivers().get(place(name)).completed();
    }

    /** Halts the ring, from any thread: from now on a publication is refused, one that waits for room too. */
    public void halt() {
        started(ring).halt();
    }

    /**
     * Closes the ring, or halts one of several senders, and waits until each handler had every event.
     *
     * @throws HandlerFailed if a handler threw: the first one, and of each other one such an exception is suppressed by it
     * @throws IllegalStateException if another thread publishes by the one sender meanwhile: nothing is closed then
     */
    public void shutdown() {
        if (ring == null) {
            return;
        }
        if (sender != null) {
            sender.close();
        } else {
            ring.halt();
        }
        boolean isInterrupted = false;
        for (Thread thread : threads) {
            while (thread.isAlive()) {
                try {
                    thread.join();
                } catch (InterruptedException interrupted) {
                    isInterrupted = true;
                }
            }
        }
        if (isInterrupted) {
            Thread.currentThread().interrupt();
        }
        HandlerFailed seen = failed;
        failed = null;
        if (seen != null) {
            throw seen;
        }
    }

    /** The same. */
    @Override
    public void close() {
        shutdown();
    }

    @Override
    public String toString() {
        return "Disruptor" + Arrays.toString(handlers.stream().map(it -> it.name).toArray());
    }
}
