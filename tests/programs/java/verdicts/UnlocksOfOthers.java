import java.util.concurrent.locks.Lock;
import java.util.concurrent.locks.ReentrantReadWriteLock;
import java.util.concurrent.locks.StampedLock;

// S: a thread gives a lock back that it hasn't, which fails, between two reads of another thread under this lock
public class UnlocksOfOthers {
    static void readTwice(Lock reader) {
        reader.lock();
        reader.unlock();
        Meet.both();
        Meet.both();
        reader.lock();
        reader.unlock();
    }
    static void unlock(Lock lock) {
        try {
            lock.unlock();
            throw new AssertionError();
        } catch (IllegalMonitorStateException wanted) {
            // It isn't locked.
        }
    }
    static void unlockStamped(StampedLock lock) {
        try {
            lock.unlockWrite(384);
            throw new AssertionError();
        } catch (IllegalMonitorStateException wanted) {
            // The stamp is of another time.
        }
    }

    static void run(Lock reader, Runnable unlock) throws Exception {
        Meet.run(2, me -> {
            if (me == 0) readTwice(reader);
            else {
                Meet.both();
                unlock.run();
                Meet.both();
            }
        });
    }
    public static void main(String[] words) throws Exception {
        ReentrantReadWriteLock both = new ReentrantReadWriteLock();
        run(both.readLock(), () -> unlock(both.writeLock()));
        StampedLock stamped = new StampedLock();
        run(stamped.asReadLock(), () -> unlock(stamped.asWriteLock()));
        run(stamped.asReadLock(), () -> unlockStamped(stamped));
    }
}
