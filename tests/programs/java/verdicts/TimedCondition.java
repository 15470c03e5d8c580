import java.util.concurrent.locks.Condition;
import java.util.concurrent.locks.ReentrantLock;

// V: a method waits for a condition with a time limit, so another thread writes between its reads
public class TimedCondition {
    static final ReentrantLock LOCK = new ReentrantLock();
    static final Condition NEVER = LOCK.newCondition();
    static int count;
    static int awaitOne() throws InterruptedException {
        LOCK.lock();
        try {
            Turns.say("held");
            while (count == 0) NEVER.awaitNanos(1_000_000);
            return count;
        } finally {
            LOCK.unlock();
        }
    }
    static void put() {
        LOCK.lock();
        count = 1;
        LOCK.unlock();
    }
    public static void main(String[] words) {
        Turns.run(() -> {
            try {
                System.out.println(awaitOne());
            } catch (InterruptedException wrong) {
                throw new AssertionError(wrong);
            }
        }, () -> {
            Turns.await("held");
            put();
        });
    }
}
