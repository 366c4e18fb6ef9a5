import java.util.Arrays;
import java.util.stream.Collectors;

/** Nanoseconds by the clock. */
final class Times {
    private Times() { }

    /** Waits without rest until the clock is there, and answers what it shows. */
    static long at(long due) {
        long now = System.nanoTime();
        while (now < due) {
            now = System.nanoTime();
        }
        return now;
    }

    /** Prints a line for each. */
    static void print(long[] nanos) {
        System.out.println(Arrays.stream(nanos).mapToObj(Long::toString).collect(Collectors.joining("\n")));
    }
}
