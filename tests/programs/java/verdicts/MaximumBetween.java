import java.util.concurrent.atomic.LongAccumulator;

// V: the other thread adds to an accumulator between two looks
public class MaximumBetween {
    private final LongAccumulator most = new LongAccumulator(Long::max, 0);

    boolean isSame() {
        long first = most.get();
        Meet.both();
        Meet.both();
        return first == most.get();
    }
    void add() { most.accumulate(5); }

    public static void main(String[] words) throws Exception {
        MaximumBetween it = new MaximumBetween();
        Meet.run(2, me -> {
            if (me == 0) it.isSame();
            else {
                Meet.both();
                it.add();
                Meet.both();
            }
        });
    }
}
