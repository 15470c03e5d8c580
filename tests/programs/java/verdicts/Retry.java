import java.util.concurrent.locks.StampedLock;

// V: an optimistic read that fails, and is made again: right, but its first try isn't as if it had run alone
public class Retry {
    private final StampedLock lock = new StampedLock();
    private int x, y;

    void move() {
        Meet.both();
        long stamp = lock.writeLock();
        x++;
        y++;
        lock.unlockWrite(stamp);
        Meet.both();
    }
    int sum() {
        long stamp = lock.tryOptimisticRead();
        int first = x;
        Meet.both();
        Meet.both();
        int second = y;
        if (lock.validate(stamp)) throw new AssertionError();
        stamp = lock.readLock();
        first = x;
        second = y;
        lock.unlockRead(stamp);
        return first + second;
    }

    public static void main(String[] words) throws Exception {
        Retry it = new Retry();
        Meet.run(2, me -> {
            if (me == 0) it.move();
            else it.sum();
        });
    }
}
