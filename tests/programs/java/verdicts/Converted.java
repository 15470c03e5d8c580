import java.util.concurrent.locks.StampedLock;

// S: a reader that becomes the writer, where nobody else has the lock, else gives it back and writes
public class Converted {
    private final StampedLock lock = new StampedLock();
    private int x, y;

    void change() {
        long stamp = lock.readLock();
        if (x >= 0) {
            long write = lock.tryConvertToWriteLock(stamp);
            if (write == 0) {
                lock.unlockRead(stamp);
                return;
            }
            stamp = write;
            x++;
            y++;
        }
        lock.unlock(stamp);
    }

    public static void main(String[] words) throws Exception {
        Converted it = new Converted();
        Meet.run(3, me -> {
            for (int one = 0; one < 300; one++) it.change();
        });
    }
}
