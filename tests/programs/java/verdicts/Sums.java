import java.util.concurrent.atomic.LongAdder;

// S: two threads look at two LongAdders, in opposite order, after others have added to them
public class Sums {
    private final LongAdder hits = new LongAdder(), misses = new LongAdder();

    long total(LongAdder one, LongAdder other) {
        long sum = one.sum();
        Meet.both();
        return sum + other.sum();
    }
    void add() {
        hits.increment();
        Meet.both();
        misses.increment();
    }

    public static void main(String[] words) throws Exception {
        Sums it = new Sums();
        Meet.run(2, me -> {
            it.add();
            Meet.both();
            it.total(me == 0 ? it.hits : it.misses, me == 0 ? it.misses : it.hits);
        });
    }
}
