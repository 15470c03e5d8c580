import java.util.concurrent.locks.ReentrantReadWriteLock;

// S: a write lock becomes a read lock without a gap, and another reader comes while the read lock is held
public class Downgrade {
    private final ReentrantReadWriteLock lock = new ReentrantReadWriteLock();
    private int value;

    int writeAndRead() {
        lock.writeLock().lock();
        value++;
        lock.readLock().lock();
        lock.writeLock().unlock();
        Meet.both();
        Meet.both();
        int read = value;
        lock.readLock().unlock();
        return read;
    }
    int read() {
        Meet.both();
        lock.readLock().lock();
        int read = value;
        lock.readLock().unlock();
        Meet.both();
        return read;
    }

    public static void main(String[] words) throws Exception {
        Downgrade it = new Downgrade();
        Meet.run(2, me -> {
            if (me == 0) it.writeAndRead();
            else it.read();
        });
    }
}
