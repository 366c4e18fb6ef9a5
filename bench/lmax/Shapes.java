/** The graphs of handlers that are measured. */
final class Shapes {
    private Shapes() {}

    /** For each handler of a shape, those that it follows. */
    static int[][] upstreams(String shape) {
        switch (shape) {
            case "unicast":
                return new int[][] {{}};
            case "pipeline":
                return new int[][] {{}, {0}, {1}};
            case "multicast":
                return new int[][] {{}, {}, {}};
            case "diamond":
                return new int[][] {{}, {}, {0, 1}};
            default:
                throw new IllegalArgumentException("no topology " + shape);
        }
    }
}
