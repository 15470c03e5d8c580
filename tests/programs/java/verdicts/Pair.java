import java.util.concurrent.atomic.AtomicInteger;

// V: two atomic numbers that belong together: a reader sees one before and the other after a writer
public class Pair {
    private final AtomicInteger low = new AtomicInteger(), high = new AtomicInteger(10);

    void move() {
        Meet.both();
        low.addAndGet(5);
        high.addAndGet(5);
        Meet.both();
    }
    int width() {
        int from = low.get();
        Meet.both();
        Meet.both();
        return high.get() - from;
    }

    public static void main(String[] words) throws Exception {
        Pair it = new Pair();
        Meet.run(2, me -> {
            if (me == 0) it.move();
            else it.width();
        });
    }
}
