import java.util.ArrayDeque;
import java.util.Deque;
import java.util.concurrent.locks.Condition;
import java.util.concurrent.locks.Lock;
import java.util.concurrent.locks.ReentrantLock;

// S: a bounded buffer by a lock and two conditions; nobody has to wait, so each call is one critical section
public class Buffer {
    private final Lock lock = new ReentrantLock();
    private final Condition notFull = lock.newCondition(), notEmpty = lock.newCondition();
    private final Deque<Integer> items = new ArrayDeque<>();

    void put(int item) throws InterruptedException {
        lock.lock();
        try {
            while (items.size() == 100) notFull.await();
            items.addLast(item);
            notEmpty.signal();
        } finally {
            lock.unlock();
        }
    }
    int take() throws InterruptedException {
        lock.lock();
        try {
            while (items.isEmpty()) notEmpty.await();
            notFull.signal();
            return items.removeFirst();
        } finally {
            lock.unlock();
        }
    }

    public static void main(String[] words) throws Exception {
        Buffer it = new Buffer();
        for (int one = 0; one < 40; one++) it.put(one);
        Meet.run(2, me -> {
            for (int one = 0; one < 20; one++) {
                it.put(one);
                it.take();
            }
        });
    }
}
