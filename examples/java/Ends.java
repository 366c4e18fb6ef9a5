import java.util.ArrayList;
import java.util.List;
import java.util.concurrent.FutureTask;
import org.verified.disruptor.Receiver;
import org.verified.disruptor.Refusal;
import org.verified.disruptor.Ring;
import org.verified.disruptor.Sender;

/** A sender and three handlers on threads of the program's own: the second and the third follow the first: Ends [EVENTS]. */
final class Ends {
    private static final int CLAIM = 10;

    private static final class Event {
        long number;
    }

    public static void main(String[] arguments) throws Exception {
        long events = arguments.length > 0 ? Long.parseLong(arguments[0]) : 1_000_000;
        refused("a ring of 1000 slots", () -> Ring.open(Event::new, 1000, Ring.MAX_LIMIT, 0));
        Ring<Event> ring = Ring.open(Event::new, 1024, Ring.MAX_LIMIT, 0, 0b1, 0b1);
        List<FutureTask<Long>> sums = new ArrayList<>();
        for (Receiver<Event> receiver : ring.receivers()) {
            FutureTask<Long> task = new FutureTask<>(() -> sumOf(receiver));
            sums.add(task);
            new Thread(task).start();
        }
        Sender<Event> sender = ring.senders().get(0);
        for (long sent = 0; sent < events; sent += CLAIM) {
            sender.publishEvents(CLAIM, (event, sequence) -> event.number = sequence);
        }
        ring.halt();
        refused("a claim after the halt", () -> sender.publishEvent((event, sequence) -> event.number = sequence));
        sender.close();
        boolean right = sender.published() == events;
        for (FutureTask<Long> sum : sums) {
            right &= sum.get() == events * (events - 1) / 2;
        }
        System.out.println(right ? "each handler had every event" : "WRONG");
        System.exit(right ? 0 : 1);
    }

    private static long sumOf(Receiver<Event> receiver) throws Exception {
        long[] sum = new long[1];
        try (receiver) {
            receiver.run((event, sequence, endOfBatch) -> sum[0] += event.number);
        }
        return sum[0];
    }

    private static void refused(String what, Runnable call) {
        try {
            call.run();
            System.out.println(what + ": not refused");
        } catch (Refusal refusal) {
            System.out.println(what + ": " + refusal.getMessage());
        }
    }
}
