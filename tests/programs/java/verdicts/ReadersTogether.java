import java.util.concurrent.locks.ReentrantReadWriteLock;

// S: two readers hold a lock at once, and a writer comes behind both
public class ReadersTogether {
    static final ReentrantReadWriteLock lock = new ReentrantReadWriteLock(true);
    static int value;
    static int read(int me) {
        lock.readLock().lock();
        try {
            Turns.say("in" + me);
            Turns.await("in" + (1 - me));
            return value;
        } finally {
            lock.readLock().unlock();
        }
    }
    static void write() {
        lock.writeLock().lock();
        try {
            value++;
        } finally {
            lock.writeLock().unlock();
        }
    }
    public static void main(String[] words) {
        Turns.run(() -> read(0), () -> read(1), () -> {
            Turns.await("in0");
            Turns.await("in1");
            write();
        });
        System.out.println(value);
    }
}
