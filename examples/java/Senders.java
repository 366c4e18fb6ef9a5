import java.util.ArrayList;
import java.util.List;
import org.verified.disruptor.Disruptor;
import org.verified.disruptor.Sender;

/** Three senders, a thread each, and two handlers: the second one sees what the first one wrote into each event: Senders [EVENTS]. */
final class Senders {
    private static final int SENDERS = 3;
    private static final int CLAIM = 10;

    private static final class Event {
        long number;
        long square;
    }

    public static void main(String[] arguments) throws Exception {
        long events = arguments.length > 0 ? Long.parseLong(arguments[0]) : 300_000;
        long[] sum = new long[1];
        try (Disruptor<Event> disruptor = new Disruptor<>(Event::new, 1024)) {
            disruptor
                    .handleEventsWith((event, sequence, endOfBatch) -> event.square = event.number * event.number)
                    .then((event, sequence, endOfBatch) -> sum[0] += event.square);
            List<Thread> threads = new ArrayList<>();
            for (Sender<Event> sender : disruptor.startSeveral(SENDERS)) {
                Thread thread = new Thread(() -> send(sender, events));
                threads.add(thread);
                thread.start();
            }
            for (Thread thread : threads) {
                thread.join();
            }
        }
        long ofOne = 0;
        for (long number = 0; number < events; number++) {
            ofOne += number * number;
        }
        System.out.println(sum[0] == SENDERS * ofOne ? "each handler had every event" : "WRONG");
        System.exit(sum[0] == SENDERS * ofOne ? 0 : 1);
    }

    private static void send(Sender<Event> sender, long events) {
        long[] next = new long[1];
        while (next[0] < events) {
            sender.publishEvents(CLAIM, (event, sequence) -> event.number = next[0]++);
        }
    }
}
