import java.util.HashMap;
import java.util.Map;
import java.util.concurrent.ConcurrentHashMap;
import java.util.concurrent.CountDownLatch;
import java.util.concurrent.ExecutorService;
import java.util.concurrent.Executors;
import java.util.concurrent.Future;
import java.util.concurrent.PriorityBlockingQueue;
import java.util.concurrent.Semaphore;
import java.util.concurrent.SynchronousQueue;
import java.util.concurrent.atomic.AtomicInteger;
import java.util.concurrent.locks.Condition;
import java.util.concurrent.locks.LockSupport;
import java.util.concurrent.locks.ReentrantLock;
import java.util.concurrent.locks.ReentrantReadWriteLock;

/**
 * On which side of a call its event stands. What waits is given what it waits for once it is stuck, and so the giver's event has to
 * stand before the waiter's. Where a call comes back to the program, the code that it calls writes a field.
 */
public class Sides {
    interface Waiting {
        void run() throws Exception;
    }

    static int within;
    final Object monitor = new Object();
    final ReentrantLock lock = new ReentrantLock();
    final Condition condition = lock.newCondition();
    final ReentrantReadWriteLock both = new ReentrantReadWriteLock();

    /** Starts what waits, and gives it what it waits for once it is stuck. */
    static void stuck(Waiting waits, Waiting gives) throws Exception {
        Thread[] waiter = new Thread[1];
        waiter[0] = new Thread(() -> {
            try {
                waits.run();
            } catch (Exception wrong) {
                throw new AssertionError(wrong);
            }
        });
        waiter[0].start();
        Meet.untilStuck(waiter[0], Thread.State.WAITING);
        gives.run();
        waiter[0].join();
    }
    /** The same of a monitor or a lock that is held meanwhile. */
    void locks() throws Exception {
        Thread waiter = new Thread(() -> { synchronized (monitor) { within = 1; } });
        synchronized (monitor) {
            waiter.start();
            Meet.untilStuck(waiter, Thread.State.BLOCKED);
        }
        waiter.join();
        waiter = new Thread(this::guarded);
        synchronized (this) {
            waiter.start();
            Meet.untilStuck(waiter, Thread.State.BLOCKED);
        }
        waiter.join();
        lock.lock();
        waiter = new Thread(() -> {
            lock.lock();
            lock.unlock();
        });
        waiter.start();
        Meet.untilStuck(waiter, Thread.State.WAITING);
        lock.unlock();
        waiter.join();
    }
    synchronized void guarded() { within = 2; }

    void helps() throws Exception {
        CountDownLatch latch = new CountDownLatch(1);
        stuck(latch::await, latch::countDown);
        Semaphore semaphore = new Semaphore(0);
        stuck(semaphore::acquire, semaphore::release);
        SynchronousQueue<Object> queue = new SynchronousQueue<>();
        stuck(() -> queue.take(), () -> queue.put(this));
        both.writeLock().lock();
        stuck(() -> both.readLock().lock(), () -> both.writeLock().unlock());
        Thread[] parked = new Thread[1];
        stuck(() -> {
            parked[0] = Thread.currentThread();
            LockSupport.park();
        }, () -> LockSupport.unpark(parked[0]));
        stuck(() -> {
            synchronized (monitor) {
                monitor.wait();
            }
        }, () -> {
            synchronized (monitor) {
                monitor.notifyAll();
            }
        });
        stuck(() -> {
            lock.lock();
            condition.await();
            lock.unlock();
        }, () -> {
            lock.lock();
            condition.signal();
            lock.unlock();
        });
    }

    static class Key implements Comparable<Key> {
        final int number;

        Key(int number) { this.number = number; }
        @Override public int hashCode() {
            within = number;
            return 5;
        }
        @Override public boolean equals(Object other) { return this == other; }
        @Override public int compareTo(Key other) {
            within = number;
            return 1;
        }
    }

    /** Each calls the key's method, or the function, in its midst. */
    static void callsBack() {
        Map<Key, Integer> map = new HashMap<>();
        map.put(new Key(1), 1);
        map.get(new Key(2));
        ConcurrentHashMap<Key, Integer> many = new ConcurrentHashMap<>();
        many.put(new Key(3), 1);
        many.get(new Key(4));
        PriorityBlockingQueue<Key> queue = new PriorityBlockingQueue<>();
        queue.add(new Key(5));
        queue.add(new Key(6));
        new AtomicInteger().updateAndGet(value -> within = 7);
    }

    static void tasks() throws Exception {
        ExecutorService pool = Executors.newSingleThreadExecutor();
        Future<Integer> future = pool.submit(() -> within = 8);
        future.get();
        pool.shutdown();
    }

    public static void main(String[] words) throws Exception {
        Sides it = new Sides();
        it.locks();
        it.helps();
        callsBack();
        tasks();
    }
}
