import java.util.concurrent.atomic.LongAccumulator;

// S: two threads look at an accumulator twice, and nobody adds; then both add, which commutes
public class Maxima {
    private final LongAccumulator most = new LongAccumulator(Long::max, 0);

    long lookTwice() {
        long first = most.get();
        Meet.both();
        return first + most.get();
    }
    void addTwice(int me) {
        most.accumulate(me);
        Meet.both();
        most.accumulate(me + 1);
    }

    public static void main(String[] words) throws Exception {
        Maxima it = new Maxima();
        Meet.run(2, me -> {
            it.lookTwice();
            Meet.both();
            it.addTwice(me);
        });
    }
}
