import java.util.concurrent.TimeUnit;
import java.util.concurrent.locks.Condition;
import java.util.concurrent.locks.ReentrantLock;

// V: a block that waits on a condition gives its lock back meanwhile, and reads before and behind what is written then
public class AwaitsInBlock {
    static final ReentrantLock lock = new ReentrantLock();
    static final Condition changed = lock.newCondition();
    static int value;
    static int waitForIt() throws InterruptedException {
        lock.lock();
        try {
            Turns.say("waits");
            while (value == 0) changed.await(1, TimeUnit.DAYS);
            return value;
        } finally {
            lock.unlock();
        }
    }
    static void set() {
        lock.lock();
        try {
            value = 1;
            changed.signalAll();
        } finally {
            lock.unlock();
        }
    }
    public static void main(String[] words) throws Exception {
        Meet.run(2, me -> {
            if (me == 0) waitForIt();
            else {
                Turns.await("waits");
                set();
            }
        });
    }
}
