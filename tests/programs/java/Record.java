/** What a thread did, and its dice. It is left out of the log (skip=Record), and does little beside the accesses that are logged. */
final class Record {
    private final int[] kinds, values;
    private final boolean[] writes;
    private int size, dice;

    Record(int steps, int seed) {
        kinds = new int[steps];
        values = new int[steps];
        writes = new boolean[steps];
        dice = seed * 7919 + 1;
    }

    /** A number from 0 to below the given one. */
    int next(int most) {
        dice = dice * 1103515245 + 12345;
        return (dice >>> 16) % most;
    }

    int pick(int[] some) { return some[next(some.length)]; }

    void add(int kind, boolean isWrite, int value) {
        kinds[size] = kind;
        writes[size] = isWrite;
        values[size++] = value;
    }

    void print() {
        StringBuilder text = new StringBuilder();
        for (int one = 0; one < size; one++) {
            text.append(kinds[one]).append(writes[one] ? " w " : " r ").append(values[one]).append('\n');
        }
        System.out.print(text);
    }
}
