import java.util.ArrayList;
import java.util.Arrays;
import java.util.List;
import java.util.concurrent.FutureTask;
import org.verified.disruptor.Receiver;
import org.verified.disruptor.Ring;
import org.verified.disruptor.Sender;

/** Our ring of slots. Its threads pause, yield, and sleep in the end. */
final class OverSlots<E> implements Exchange<E> {
    private final Ring<E> ring;
    private final boolean hasSeveral;
    private final List<FutureTask<Void>> handlers = new ArrayList<>();

    OverSlots(String way, Plan<E> plan) {
        if (!way.equals("parking")) {
            throw new IllegalArgumentException("ours waits by parking alone");
        }
        long[] masks = Arrays.stream(plan.upstreams).mapToLong(OverSlots::mask).toArray();
        hasSeveral = plan.senders > 0;
        ring = hasSeveral
                ? Ring.openSeveral(plan.factory, plan.size, Ring.MAX_LIMIT, plan.senders, masks)
                : Ring.open(plan.factory, plan.size, Ring.MAX_LIMIT, masks);
        for (int k = 0; k < masks.length; k++) {
            Receiver<E> receiver = ring.receivers().get(k);
            Handler<E> handler = plan.handlers.get(k);
            FutureTask<Void> task = new FutureTask<>(() -> {
                receiver.run((event, sequence, endOfBatch) -> handler.handle(event, sequence));
                return null;
            });
            handlers.add(task);
            new Thread(task).start();
        }
    }

    private static long mask(int[] upstreams) {
        return Arrays.stream(upstreams).mapToLong(k -> 1L << k).sum();
    }

    @Override
    public Sending sending(int k, Filler<E> filler) {
        Sender<E> sender = ring.senders().get(k);
        return n -> sender.publishEvents(n, filler::fill);
    }

    @Override
    public void awaitAll() throws Exception {
        if (hasSeveral) {
            ring.halt();
        } else {
            ring.senders().get(0).close();
        }
        for (FutureTask<Void> handler : handlers) {
            handler.get();
        }
    }

    @Override
    public void close() { }
}
