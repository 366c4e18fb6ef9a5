import java.util.List;
import java.util.function.Supplier;

/**
 * A ring with a thread for each handler, of our library ({@link OverSlots}) or of LMAX's ({@link OverLmax}): what is measured runs over
 * either in the same way.
 *
 * @param <E> the class of its events
 */
interface Exchange<E> {
    /** What a sender does with an event that it claimed. */
    interface Filler<E> {
        void fill(E event, long sequence);
    }

    /** What a handler does with an event. */
    interface Handler<E> {
        void handle(E event, long sequence);
    }

    /** The end of a sender, for one thread. */
    interface Sending {
        /** Claims, fills and publishes so many events. */
        void publish(int n);
    }

    /** What an exchange is to be: handler k follows those of {@code upstreams[k]}; with no senders it has one, alone. */
    final class Plan<E> {
        final Supplier<E> factory;
        final int size;
        final int senders;
        final int[][] upstreams;
        final List<Handler<E>> handlers;

        Plan(Supplier<E> factory, int size, int senders, int[][] upstreams, List<Handler<E>> handlers) {
            this.factory = factory;
            this.size = size;
            this.senders = senders;
            this.upstreams = upstreams;
            this.handlers = handlers;
        }
    }

    /** Opens one and starts its handlers. {@code way} is how they wait: ours park, LMAX's are {@code yielding} and so on. */
    static <E> Exchange<E> start(String library, String way, Plan<E> plan) throws ReflectiveOperationException {
        // (by its name, since only one of the two libraries need be there)
        Object made = Class.forName(library.equals("slots") ? "OverSlots" : "OverLmax")
                .getDeclaredConstructor(String.class, Plan.class)
                .newInstance(way, plan);
        @SuppressWarnings("unchecked")
        Exchange<E> exchange = (Exchange<E>) made;
        return exchange;
    }

    /** The end of sender k, which fills its events so. */
    Sending sending(int k, Filler<E> filler);

    /** Waits until each handler has had all, once nobody sends any more. */
    void awaitAll() throws Exception;

    /** Ends the handlers' threads, after that. */
    void close() throws Exception;
}
