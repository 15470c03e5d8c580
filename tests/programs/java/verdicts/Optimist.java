import java.util.concurrent.locks.StampedLock;

// S: optimistic reads that are valid: two of them overlap, and a writer comes before and after
public class Optimist {
    private final StampedLock lock = new StampedLock();
    private int x, y;

    void move(int by) {
        long stamp = lock.writeLock();
        x += by;
        y += by;
        lock.unlockWrite(stamp);
    }
    int sum() {
        long stamp = lock.tryOptimisticRead();
        int first = x;
        Meet.both();
        int second = y;
        if (!lock.validate(stamp)) throw new AssertionError();
        return first + second;
    }

    public static void main(String[] words) throws Exception {
        Optimist it = new Optimist();
        it.move(1);
        Meet.run(2, me -> {
            it.sum();
            Meet.both();
            it.move(2);
        });
        it.move(3);
    }
}
