import java.util.ArrayDeque;
import java.util.concurrent.locks.ReadWriteLock;
import java.util.concurrent.locks.ReentrantReadWriteLock;

// V: a name is looked for under the lock of readers, and added under that of writers; blames QueueOfNames.addIfAbsent
public class QueueOfNames {
    private final ReadWriteLock lock = new ReentrantReadWriteLock(true);
    private final ArrayDeque<String> names = new ArrayDeque<>();

    boolean has(String name) {
        lock.readLock().lock();
        try {
            return names.contains(name);
        } finally {
            lock.readLock().unlock();
        }
    }

    void add(String name) {
        lock.writeLock().lock();
        try {
            names.addLast(name);
        } finally {
            lock.writeLock().unlock();
        }
    }

    void addIfAbsent(String name, Runnable between) {
        if (has(name)) return;
        between.run();
        add(name);
    }

    public static void main(String[] words) {
        QueueOfNames queue = new QueueOfNames();
        queue.add("Ann");
        Turns.run(() -> queue.addIfAbsent("Bob", () -> {
            Turns.say("not in the queue");
            Turns.await("added");
        }), () -> {
            Turns.await("not in the queue");
            queue.addIfAbsent("Bob", () -> { });
            Turns.say("added");
        });
        System.out.println(queue.names);
    }
}
