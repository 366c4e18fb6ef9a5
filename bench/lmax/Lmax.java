import com.lmax.disruptor.BatchEventProcessor;
import com.lmax.disruptor.EventHandler;
import com.lmax.disruptor.EventPoller;
import com.lmax.disruptor.InsufficientCapacityException;
import com.lmax.disruptor.RingBuffer;
import com.lmax.disruptor.Sequence;
import com.lmax.disruptor.SequenceBarrier;
import com.lmax.disruptor.YieldingWaitStrategy;
import com.lmax.disruptor.dsl.Disruptor;
import com.lmax.disruptor.dsl.ProducerType;
import com.lmax.disruptor.util.DaemonThreadFactory;
import java.util.ArrayList;
import java.util.Arrays;
import java.util.Comparator;
import java.util.List;

/**
 * LMAX's own ring, to measure the exchanges against: {@code Lmax CLAIMS TOPOLOGY SIZE SECONDS ROUNDS} prints
 * a line as {@code disruptor_bench} does. On one thread (topologies that begin with {@code core-}) the
 * handlers are pollers; else each is a batch processor on a thread of its own that waits by yielding.
 * {@code sendersP-} before a shape stands for P producers, each on a thread of its own too.
 *
 * <p>CLAIMS is {@code next}, which parks where there is no room, {@code try}, which tries again and yields
 * now and then, as the yielding strategy does, or {@code dsl}: then {@code Disruptor} puts the graph together and
 * runs it, and a single event is published by a translator.
 */
public final class Lmax {
    /** How many events go through between two looks at the clock, about. */
    private static final long STRETCH = 65_536;

    /** Rounds before those that count, until the machine code is there. */
    private static final int WARM = 2;

    /** Failed claims before the first that yields: as many as the yielding strategy looks. */
    private static final int SPINS = 100;

    static final class Event {
        long first;
        long second;
    }

    /** The handlers add up what they are shown. */
    static final class Sum implements EventHandler<Event> {
        long total;

        @Override
        public void onEvent(Event event, long sequence, boolean endOfBatch) {
            total += event.first;
        }
    }

    /** The same by a poller, which goes on as long as there is more. */
    static final class PolledSum implements EventPoller.Handler<Event> {
        final Sum sum = new Sum();

        @Override
        public boolean onEvent(Event event, long sequence, boolean endOfBatch) {
            sum.total += event.first;
            return true;
        }
    }

    private record Round(long events, long nanos) {
        double perSecond() {
            return events * 1e9 / Math.max(1, nanos);
        }
    }

    private final int[][] upstreams;
    private final int producers;
    private final boolean tries;
    private final boolean dsl;
    private final long claim;
    private final boolean step;
    private final int size;
    private final long nanos;

    private Lmax(String claims, int producers, String shape, String pace, int size, double seconds) {
        this.tries = claims.equals("try");
        this.dsl = claims.equals("dsl");
        this.producers = producers;
        this.upstreams = Shapes.upstreams(shape);
        this.step = pace.equals("step");
        this.claim = pace.startsWith("b") ? Math.min(size, Long.parseLong(pace.substring(1))) : 1;
        this.size = size;
        this.nanos = (long) (seconds * 1e9);
    }

    private boolean isFinal(int handler) {
        return Arrays.stream(upstreams).allMatch(ups -> Arrays.stream(ups).noneMatch(up -> up == handler));
    }

    private static Sequence[] chosen(int[] handlers, Sequence[] sequences) {
        return Arrays.stream(handlers).mapToObj(h -> sequences[h]).toArray(Sequence[]::new);
    }

    /** Claims by trying again as long as there is no room, and has the last sequence. */
    private static long tried(RingBuffer<Event> ring, int claim) {
        for (int failed = 0; ; failed++) {
            try {
                return ring.tryNext(claim);
            } catch (InsufficientCapacityException full) {
                if (failed < SPINS) {
                    Thread.onSpinWait();
                } else {
                    Thread.yield();
                }
            }
        }
    }

    private static void fill(Event event, long s) {
        event.first = s;
        event.second = 0;
    }

    private void send(RingBuffer<Event> ring) {
        if (claim == 1 && dsl) {
            ring.publishEvent(Lmax::fill);
            return;
        }
        if (claim == 1) {
            long s = tries ? tried(ring, 1) : ring.next();
            fill(ring.get(s), s);
            ring.publish(s);
            return;
        }
        long hi = tries ? tried(ring, (int) claim) : ring.next((int) claim);
        long lo = hi - claim + 1;
        for (long s = lo; s <= hi; s++) {
            fill(ring.get(s), s);
        }
        ring.publish(lo, hi);
    }

    private static void check(Sum sum, long events) {
        if (sum.total != events * (events - 1) / 2) {
            throw new IllegalStateException("wrong sum");
        }
    }

    /** Rounds of laps: claims until the ring is full, or one, and then a turn for each poller. */
    private List<Round> oneThread(int rounds) throws Exception {
        RingBuffer<Event> ring = ring();
        int handlers = upstreams.length;
        PolledSum[] sums = new PolledSum[handlers];
        Sequence[] sequences = new Sequence[handlers];
        List<EventPoller<Event>> pollers = new ArrayList<>();
        for (int h = 0; h < handlers; h++) {
            EventPoller<Event> poller = ring.newPoller(chosen(upstreams[h], sequences));
            pollers.add(poller);
            sequences[h] = poller.getSequence();
            sums[h] = new PolledSum();
            if (isFinal(h)) {
                ring.addGatingSequences(sequences[h]);
            }
        }
        long claims = step ? 1 : size / claim;
        long all = 0;
        List<Round> done = new ArrayList<>();
        for (int round = 0; round < rounds; round++) {
            long before = all;
            long begun = System.nanoTime();
            do {
                for (long lap = 0; lap < STRETCH / (claims * claim); lap++) {
                    for (long k = 0; k < claims; k++) {
                        send(ring);
                    }
                    for (int h = 0; h < handlers; h++) {
                        pollers.get(h).poll(sums[h]);
                    }
                    all += claims * claim;
                }
            } while (System.nanoTime() - begun < nanos);
            done.add(new Round(all - before, System.nanoTime() - begun));
        }
        for (PolledSum polled : sums) {
            check(polled.sum, all);
        }
        return done;
    }

    private RingBuffer<Event> ring() {
        YieldingWaitStrategy waiting = new YieldingWaitStrategy();
        return producers == 0
                ? RingBuffer.createSingleProducer(Event::new, size, waiting)
                : RingBuffer.createMultiProducer(Event::new, size, waiting);
    }

    /** Claims, as many as a stretch has, and so on until the time is over. */
    private void sendAll(RingBuffer<Event> ring, long begun) {
        do {
            for (long k = 0; k < STRETCH / claim; k++) {
                send(ring);
            }
        } while (System.nanoTime() - begun < nanos);
    }

    /** The only producer sends on this thread, and several of them on threads of their own. */
    private void produce(RingBuffer<Event> ring, long begun) throws InterruptedException {
        if (producers == 0) {
            sendAll(ring, begun);
            return;
        }
        List<Thread> threads = new ArrayList<>();
        for (int p = 0; p < producers; p++) {
            threads.add(new Thread(() -> sendAll(ring, begun)));
        }
        threads.forEach(Thread::start);
        for (Thread thread : threads) {
            thread.join();
        }
    }

    /** One round over a ring of its own, from the first claim until the last handler has taken all. */
    private Round threads() throws Exception {
        RingBuffer<Event> ring = ring();
        int handlers = upstreams.length;
        Sum[] sums = new Sum[handlers];
        Sequence[] sequences = new Sequence[handlers];
        List<BatchEventProcessor<Event>> processors = new ArrayList<>();
        List<Thread> threads = new ArrayList<>();
        for (int h = 0; h < handlers; h++) {
            SequenceBarrier barrier = ring.newBarrier(chosen(upstreams[h], sequences));
            sums[h] = new Sum();
            processors.add(new BatchEventProcessor<>(ring, barrier, sums[h]));
            sequences[h] = processors.get(h).getSequence();
            if (isFinal(h)) {
                ring.addGatingSequences(sequences[h]);
            }
            threads.add(new Thread(processors.get(h)));
        }
        threads.forEach(Thread::start);
        long begun = System.nanoTime();
        produce(ring, begun);
        long last = ring.getCursor();
        while (Arrays.stream(sequences).anyMatch(sequence -> sequence.get() < last)) {
            Thread.yield();
        }
        long time = System.nanoTime() - begun;
        processors.forEach(BatchEventProcessor::halt);
        for (Thread thread : threads) {
            thread.join();
        }
        for (Sum sum : sums) {
            check(sum, last + 1);
        }
        return new Round(last + 1, time);
    }

    /** The same round as LMAX's guide has it: the DSL makes ring, barriers and threads, and waits for the backlog. */
    private Round inOneCall() throws Exception {
        ProducerType type = producers == 0 ? ProducerType.SINGLE : ProducerType.MULTI;
        Disruptor<Event> disruptor =
                new Disruptor<>(Event::new, size, DaemonThreadFactory.INSTANCE, type, new YieldingWaitStrategy());
        Sum[] sums = new Sum[upstreams.length];
        for (int h = 0; h < sums.length; h++) {
            sums[h] = new Sum();
            Sum[] before = Arrays.stream(upstreams[h]).mapToObj(up -> sums[up]).toArray(Sum[]::new);
            if (before.length == 0) {
                disruptor.handleEventsWith(sums[h]);
            } else {
                disruptor.after(before).handleEventsWith(sums[h]);
            }
        }
        RingBuffer<Event> ring = disruptor.start();
        long begun = System.nanoTime();
        produce(ring, begun);
        disruptor.shutdown();
        long time = System.nanoTime() - begun;
        long events = ring.getCursor() + 1;
        for (Sum sum : sums) {
            check(sum, events);
        }
        return new Round(events, time);
    }

    public static void main(String[] words) throws Exception {
        String topology = words[1];
        boolean oneThread = topology.startsWith("core-");
        List<String> parts = new ArrayList<>(List.of(topology.split("-")));
        String exchange = parts.get(0);
        int producers = exchange.startsWith("senders") ? Integer.parseInt(exchange.substring(7)) : 0;
        if (oneThread || producers > 0) {
            parts.remove(0);
        }
        int size = Integer.parseInt(words[2]);
        double seconds = Double.parseDouble(words[3]);
        int rounds = WARM + Integer.parseInt(words[4]);
        String pace = parts.size() > 1 ? parts.get(1) : "";
        Lmax lmax = new Lmax(words[0], producers, parts.get(0), pace, size, seconds);
        List<Round> done = new ArrayList<>();
        if (oneThread) {
            done.addAll(lmax.oneThread(rounds));
        } else {
            for (int round = 0; round < rounds; round++) {
                done.add(lmax.dsl ? lmax.inOneCall() : lmax.threads());
            }
        }
        done.subList(0, WARM).clear();
        done.sort(Comparator.comparingDouble(Round::perSecond));
        Round median = done.get(done.size() / 2);
        System.out.printf("lmax %s %d %d %.6f %.0f%n", topology, size, median.events, median.nanos / 1e9, median.perSecond());
    }
}
