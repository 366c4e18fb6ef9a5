import java.util.ArrayList;
import java.util.Arrays;
import java.util.Collections;
import java.util.List;
import java.util.concurrent.FutureTask;
import java.util.regex.Matcher;
import java.util.regex.Pattern;

/**
 * Events a second from Java, each end on a thread of its own, measured as bench/c/rates.c does: {@code Rates LIBRARY TOPOLOGY SIZE SECONDS
 * ROUNDS}. LIBRARY is {@code slots}, our ring, or {@code lmax}, LMAX's by {@code next}, which waits by yielding.
 */
public final class Rates {
    private static final int STRETCH = 65_536;

    /** Rounds before those that count, until the machine code is there. */
    private static final int WARM = 2;

    private static final Pattern TOPOLOGY = Pattern.compile("(?:bytes(\\d+)-)?(?:senders(\\d+)-)?(\\w+?)(?:-b(\\d+))?");

    static final class Event {
        long first;
        long second;
        final long[] more;

        Event(int bytes) {
            more = new long[bytes / 8 - 2];
        }
    }

    /** Adds up what it is shown. */
    private static final class Sum {
        long total;

        private void add(Event event, long sequence) {
            total += event.first + event.second;
        }

        private void addAll(Event event, long sequence) {
            long sum = event.first + event.second;
            for (long word : event.more) {
                sum += word;
            }
            total += sum;
        }
    }

    private final String library;
    private final int bytes;
    private final int senders;
    private final int[][] upstreams;
    private final int claim;
    private final int size;
    private final long nanos;

    private Rates(String library, String topology, int size, double seconds) {
        Matcher words = TOPOLOGY.matcher(topology);
        if (!words.matches()) {
            throw new IllegalArgumentException("no topology " + topology);
        }
        this.library = library;
        this.size = size;
        bytes = number(words.group(1), 16);
        senders = number(words.group(2), 0);
        upstreams = Shapes.upstreams(words.group(3));
        claim = Math.min(size, number(words.group(4), 1));
        nanos = (long) (seconds * 1e9);
    }

    private static int number(String digits, int otherwise) {
        return digits == null ? otherwise : Integer.parseInt(digits);
    }

    /** Fills events with the numbers from 0 on. */
    private Exchange.Filler<Event> filler(long[] sent) {
        if (bytes == 16) {
            return (event, sequence) -> {
                event.first = sent[0]++;
                event.second = 0;
            };
        }
        return (event, sequence) -> {
            event.first = sent[0]++;
            event.second = 0;
            Arrays.fill(event.more, 0);
        };
    }

    /** Sends until the time is over, and answers how many. */
    private long send(Exchange<Event> exchange, int k) {
        long begun = System.nanoTime();
        long[] sent = new long[1];
        Exchange.Sending sending = exchange.sending(k, filler(sent));
        do {
            for (int claims = 0; claims < STRETCH / claim; claims++) {
                sending.publish(claim);
            }
        } while (System.nanoTime() - begun < nanos);
        return sent[0];
    }

    /** One round over a ring of its own, from the first claim until the last handler has had all. */
    private double play() throws Exception {
        List<Sum> sums = new ArrayList<>();
        List<Exchange.Handler<Event>> handlers = new ArrayList<>();
        for (int k = 0; k < upstreams.length; k++) {
            Sum sum = new Sum();
            sums.add(sum);
            handlers.add(bytes == 16 ? sum::add : sum::addAll);
        }
        String way = library.equals("slots") ? "parking" : "yielding";
        Exchange<Event> exchange =
                Exchange.start(library, way, new Exchange.Plan<>(() -> new Event(bytes), size, senders, upstreams, handlers));
        long begun = System.nanoTime();
        long events = 0;
        long wanted = 0;
        for (long count : sendAll(exchange)) {
            events += count;
            wanted += count * (count - 1) / 2;
        }
        exchange.awaitAll();
        double rate = events * 1e9 / Math.max(1, System.nanoTime() - begun);
        exchange.close();
        for (Sum sum : sums) {
            if (sum.total != wanted) {
                throw new IllegalStateException("wrong sum");
            }
        }
        return rate;
    }

    /** A thread for each sender: how many events each sent. */
    private List<Long> sendAll(Exchange<Event> exchange) throws Exception {
        List<FutureTask<Long>> tasks = new ArrayList<>();
        for (int k = 0; k < Math.max(senders, 1); k++) {
            int sender = k;
            FutureTask<Long> task = new FutureTask<>(() -> send(exchange, sender));
            tasks.add(task);
            new Thread(task).start();
        }
        List<Long> counts = new ArrayList<>();
        for (FutureTask<Long> task : tasks) {
            counts.add(task.get());
        }
        return counts;
    }

    public static void main(String[] words) throws Exception {
        Rates rates = new Rates(words[0], words[1], Integer.parseInt(words[2]), Double.parseDouble(words[3]));
        for (int k = 0; k < WARM; k++) {
            rates.play();
        }
        List<Double> found = new ArrayList<>();
        for (int k = Integer.parseInt(words[4]); k > 0; k--) {
            found.add(rates.play());
        }
        Collections.sort(found);
        System.out.printf("java-%s %s %s %.0f%n", words[0], words[1], words[2], found.get(found.size() / 2));
    }
}
