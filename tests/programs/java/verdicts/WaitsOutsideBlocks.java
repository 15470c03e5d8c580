import java.util.concurrent.locks.Condition;
import java.util.concurrent.locks.ReentrantLock;

// S: waits that end by time or by an interrupt have their monitor and their lock again, and no block is split
public class WaitsOutsideBlocks {
    static final Object monitor = new Object();
    static final ReentrantLock lock = new ReentrantLock();
    static final Condition condition = lock.newCondition();
    static int count;
    static void add() {
        synchronized (monitor) {
            lock.lock();
            count++;
            lock.unlock();
        }
    }
    public static void main(String[] words) throws Exception {
        Meet.run(2, me -> {
            for (int one = 0; one < 5; one++) {
                add();
                synchronized (monitor) {
                    monitor.wait(1);
                }
                add();
                lock.lockInterruptibly();
                condition.awaitNanos(1000);
                Thread.currentThread().interrupt();
                try {
                    condition.await();
                } catch (InterruptedException wanted) {
                    count++;
                }
                lock.unlock();
                Thread.currentThread().interrupt();
                synchronized (monitor) {
                    try {
                        monitor.wait();
                    } catch (InterruptedException wanted) {
                        lock.lock();
                        count++;
                        lock.unlock();
                    }
                }
                Thread.currentThread().interrupt();
                try {
                    lock.lockInterruptibly();
                } catch (InterruptedException wanted) {
                    add();
                }
            }
        });
        System.out.println(count);
    }
}
