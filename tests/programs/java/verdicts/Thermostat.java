import java.util.concurrent.locks.ReentrantReadWriteLock;

// S: settings are read and written under one lock for readers and writers, and a writer queues while two readers have it
public class Thermostat {
    private static int lowest;
    private static int highest;
    private static final ReentrantReadWriteLock lock = new ReentrantReadWriteLock();

    static {
        lowest = 18;
        highest = 21;
    }

    static boolean heats(int degrees, Runnable within) {
        lock.readLock().lock();
        try {
            boolean cold = degrees < lowest;
            within.run();
            return cold || degrees < highest;
        } finally {
            lock.readLock().unlock();
        }
    }

    static void set(int low, int high) {
        lock.writeLock().lock();
        try {
            lowest = low;
            highest = high;
        } finally {
            lock.writeLock().unlock();
        }
    }

    public static void main(String[] words) {
        Runnable nothing = () -> { };
        Turns.run(() -> {
            heats(20, () -> {
                Turns.say("reader");
                Turns.await("two readers");
                while (!lock.hasQueuedThreads()) Thread.yield();
            });
            Turns.await("set");
            System.out.println(heats(22, nothing));
        }, () -> {
            Turns.await("reader");
            heats(19, () -> Turns.say("two readers"));
        }, () -> {
            Turns.await("two readers");
            set(23, 25);
            Turns.say("set");
        });
    }
}
