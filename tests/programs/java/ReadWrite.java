import java.util.HashMap;
import java.util.Map;
import java.util.concurrent.locks.Lock;
import java.util.concurrent.locks.ReadWriteLock;
import java.util.concurrent.locks.ReentrantReadWriteLock;

/** A map under a read-write lock. It is looked at and changed under one lock to write, or apart: under two. */
public class ReadWrite {
    final ReadWriteLock lock = new ReentrantReadWriteLock();
    final Map<String, Integer> map = new HashMap<>();
    int made;

    int make(String key) {
        lock.writeLock().lock();
        try {
            if (!map.containsKey(key)) map.put(key, ++made);
            return map.get(key);
        } finally {
            lock.writeLock().unlock();
        }
    }
    int look(String key) {
        Lock reading = lock.readLock();
        reading.lock();
        try {
            Integer value = map.get(key);
            return value == null ? 0 : value;
        } finally {
            reading.unlock();
        }
    }
    void makeApart(String key) {
        boolean isThere = look(key) != 0;
        Meet.both();
        if (isThere) return;
        lock.writeLock().lock();
        try {
            map.put(key, ++made);
        } finally {
            lock.writeLock().unlock();
        }
    }

    public static void main(String[] words) throws Exception {
        ReadWrite it = new ReadWrite();
        Meet.run(2, me -> {
            for (int one = 0; one < 5; one++) {
                if (words[0].equals("atomic")) it.make("k" + one);
                else it.makeApart("k" + one);
                it.look("k" + one);
            }
        });
        System.out.println(it.made);
    }
}
