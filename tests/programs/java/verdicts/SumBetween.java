import java.util.concurrent.atomic.LongAdder;

// V: another thread adds between two looks at a LongAdder
public class SumBetween {
    private final LongAdder hits = new LongAdder();

    long difference() {
        long before = hits.sum();
        Meet.both();
        Meet.both();
        return hits.sum() - before;
    }
    void add() {
        Meet.both();
        hits.increment();
        Meet.both();
    }

    public static void main(String[] words) throws Exception {
        SumBetween it = new SumBetween();
        Meet.run(2, me -> {
            if (me == 0) it.difference();
            else it.add();
        });
    }
}
