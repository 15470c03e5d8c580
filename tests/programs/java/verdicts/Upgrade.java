import java.util.concurrent.locks.ReadWriteLock;
import java.util.concurrent.locks.ReentrantReadWriteLock;

// V: the read lock is given back before the write lock is taken, and nobody looks again
public class Upgrade {
    private final ReadWriteLock lock = new ReentrantReadWriteLock();
    private String name;

    void nameOnce(String wanted) {
        lock.readLock().lock();
        boolean isFree = name == null;
        lock.readLock().unlock();
        Meet.both();
        if (!isFree) return;
        lock.writeLock().lock();
        name = wanted;
        lock.writeLock().unlock();
    }

    public static void main(String[] words) throws Exception {
        Upgrade it = new Upgrade();
        Meet.run(2, me -> it.nameOnce("name" + me));
    }
}
