import java.util.stream.IntStream;

// V: a total is made by a parallel stream between two looks at the version, which another thread raises; blames TotalsInParallel.total
public class TotalsInParallel {
    private final int[] cells = new int[1000];
    private volatile int version;

    void set(int cell, int value) {
        cells[cell] = value;
        version++;
    }

    long total() {
        int before = version;
        Turns.say("looked");
        Turns.await("changed");
        long sum = IntStream.range(0, cells.length).parallel().mapToLong(cell -> cells[cell]).sum();
        if (version != before) System.out.println("the table has changed");
        return sum;
    }

    public static void main(String[] words) {
        TotalsInParallel table = new TotalsInParallel();
        table.set(1, 10);
        Turns.run(() -> System.out.println(table.total()), () -> {
            Turns.await("looked");
            table.set(999, 30);
            Turns.say("changed");
        });
        System.out.println(table.version);
    }
}
