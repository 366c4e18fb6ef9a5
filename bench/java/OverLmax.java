import com.lmax.disruptor.BatchEventProcessor;
import com.lmax.disruptor.BlockingWaitStrategy;
import com.lmax.disruptor.BusySpinWaitStrategy;
import com.lmax.disruptor.RingBuffer;
import com.lmax.disruptor.Sequence;
import com.lmax.disruptor.WaitStrategy;
import com.lmax.disruptor.YieldingWaitStrategy;
import java.util.ArrayList;
import java.util.Arrays;
import java.util.List;

/** LMAX's ring, whose handlers are batch processors. A sender claims by {@code next}. */
final class OverLmax<E> implements Exchange<E> {
    private final RingBuffer<E> ring;
    private final List<BatchEventProcessor<E>> processors = new ArrayList<>();
    private final List<Thread> threads = new ArrayList<>();

    OverLmax(String way, Plan<E> plan) {
        ring = plan.senders > 0
                ? RingBuffer.createMultiProducer(plan.factory::get, plan.size, strategy(way))
                : RingBuffer.createSingleProducer(plan.factory::get, plan.size, strategy(way));
        for (int k = 0; k < plan.upstreams.length; k++) {
            Handler<E> handler = plan.handlers.get(k);
            Sequence[] before = Arrays.stream(plan.upstreams[k]).mapToObj(this::sequence).toArray(Sequence[]::new);
            processors.add(new BatchEventProcessor<>(
                    ring, ring.newBarrier(before), (event, sequence, endOfBatch) -> handler.handle(event, sequence)));
            threads.add(new Thread(processors.get(k)));
        }
        for (int k = 0; k < processors.size(); k++) {
            int handler = k;
            if (Arrays.stream(plan.upstreams).flatMapToInt(Arrays::stream).noneMatch(up -> up == handler)) {
                ring.addGatingSequences(sequence(k));
            }
        }
        threads.forEach(Thread::start);
    }

    private Sequence sequence(int k) {
        return processors.get(k).getSequence();
    }

    private static WaitStrategy strategy(String way) {
        switch (way) {
            case "yielding":
                return new YieldingWaitStrategy();
            case "spinning":
                return new BusySpinWaitStrategy();
            case "blocking":
                return new BlockingWaitStrategy();
            default:
                throw new IllegalArgumentException(way);
        }
    }

    @Override
    public Sending sending(int k, Filler<E> filler) {
        return n -> {
            long last = ring.next(n);
            for (long sequence = last - n + 1; sequence <= last; sequence++) {
                filler.fill(ring.get(sequence), sequence);
            }
            ring.publish(last - n + 1, last);
        };
    }

    @Override
    public void awaitAll() {
        long last = ring.getCursor();
        for (BatchEventProcessor<E> processor : processors) {
            while (processor.getSequence().get() < last) {
                Thread.yield();
            }
        }
    }

    @Override
    public void close() throws InterruptedException {
        processors.forEach(BatchEventProcessor::halt);
        for (Thread thread : threads) {
            thread.join();
        }
    }
}
