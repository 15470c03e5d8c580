import aerodrome.log.TestLog;
import java.io.IOException;
import java.util.concurrent.locks.ReentrantLock;

/** A log begins and ends while a thread has locks and is in blocks. Points aren't logged. */
public class Held {
    static final Object MONITOR = new Object(), OTHER = new Object();
    static final ReentrantLock LOCK = new ReentrantLock();
    static int value;

    static void holds() {
        LOCK.lock();
        LOCK.lock();
        synchronized (MONITOR) {
            synchronized (MONITOR) {
                Points.next(1);
                value = 1;
            }
        }
        LOCK.lock();
        LOCK.unlock();
        LOCK.unlock();
        LOCK.unlock();
        within();
        synchronized (OTHER) {
            Points.next(3);
            value = 3;
        }
    }
    static void within() {
        synchronized (MONITOR) {
            value = 2;
        }
    }
    static synchronized void waits() throws InterruptedException {
        Points.next(5);
        Held.class.wait();
        value = 4;
    }
    static synchronized void looks() {
        value++;
        Held.class.notifyAll();
    }

    static void turnAndLog(int turn, String name) throws IOException {
        if (turn > 1) TestLog.end();
        if (name != null) TestLog.begin(name);
        Points.now = turn;
    }

    public static void main(String[] words) throws Exception {
        Thread thread = new Thread(() -> {
            try {
                holds();
                waits();
            } catch (InterruptedException never) {
                throw new AssertionError(never);
            }
        });
        thread.start();
        Points.await(1);
        turnAndLog(1, "held");
        Points.await(3);
        turnAndLog(3, "held");
        Points.await(5);
        turnAndLog(5, "waits");
        while (thread.getState() != Thread.State.WAITING) Thread.yield();
        looks();
        thread.join();
        TestLog.end();
    }
}
