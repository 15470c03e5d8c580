import java.util.concurrent.CountDownLatch;

// S: two threads count two latches down, in opposite order; they overlap, and nobody can tell in which order
public class Countdowns {
    private final CountDownLatch first = new CountDownLatch(2), second = new CountDownLatch(2);
    private int given;

    void both(CountDownLatch one, CountDownLatch other) {
        one.countDown();
        Meet.both();
        other.countDown();
    }
    int seen() { return given + given; }

    public static void main(String[] words) throws Exception {
        Countdowns it = new Countdowns();
        Meet.run(3, me -> {
            if (me == 2) {
                it.first.await();
                it.second.await();
                it.seen();
                return;
            }
            if (me == 0) it.given = 1;
            it.both(me == 0 ? it.first : it.second, me == 0 ? it.second : it.first);
        });
    }
}
