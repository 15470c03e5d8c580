import java.util.concurrent.TimeUnit;
import java.util.concurrent.locks.Condition;
import java.util.concurrent.locks.Lock;
import java.util.concurrent.locks.ReentrantLock;

/** A lock with a condition, which is waited on while the lock is held twice; a class that extends ReentrantLock. */
public class Locks {
    static class Segment extends ReentrantLock {
        int count;

        @Override public void lock() { super.lock(); }
        void add() {
            lock();
            try {
                count++;
            } finally {
                unlock();
            }
        }
        boolean tryAdd() {
            if (!tryLock()) return false;
            try {
                count++;
                return true;
            } finally {
                unlock();
            }
        }
    }

    final Lock lock = new ReentrantLock();
    final Condition more = lock.newCondition();
    final Segment segment = new Segment();
    int items;

    void put() {
        lock.lock();
        try {
            items++;
            more.signal();
        } finally {
            lock.unlock();
        }
    }
    boolean tryPut() throws InterruptedException {
        if (!lock.tryLock() && !lock.tryLock(10, TimeUnit.MILLISECONDS)) return false;
        try {
            items++;
            more.signalAll();
            return true;
        } finally {
            lock.unlock();
        }
    }
    void take() throws InterruptedException {
        lock.lockInterruptibly();
        try {
            lock.lock();
            try {
                while (items == 0) more.await();
                items--;
            } finally {
                lock.unlock();
            }
        } finally {
            lock.unlock();
        }
    }

    /** One thread puts twice as often as each of two takes, and one as often. */
    public static void main(String[] words) throws Exception {
        Locks locks = new Locks();
        Meet.run(4, me -> {
            for (int one = 0; one < 40; one++) {
                if (me == 0) {
                    locks.put();
                    locks.put();
                } else if (me == 1) while (!locks.tryPut()) Thread.yield();
                else locks.take();
                locks.segment.add();
                locks.segment.tryAdd();
            }
        });
        try {
            locks.lock.unlock();
        } catch (IllegalMonitorStateException wrong) {
            System.out.print("not its lock, ");
        }
        System.out.println(locks.items);
    }
}
