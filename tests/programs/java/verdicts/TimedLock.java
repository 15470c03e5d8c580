import java.util.concurrent.TimeUnit;
import java.util.concurrent.locks.ReentrantLock;

// S: a lock that is tried, waited for in vain, and left by an interrupt, before it is taken
public class TimedLock {
    static final ReentrantLock LOCK = new ReentrantLock(true);
    static int sum;
    static int add() {
        int failed = 0;
        try {
            if (!LOCK.tryLock()) failed++;
            if (!LOCK.tryLock(1, TimeUnit.MILLISECONDS)) failed++;
            Thread.currentThread().interrupt();
            LOCK.lockInterruptibly();
        } catch (InterruptedException expected) {
            failed++;
        }
        Turns.say("tried");
        LOCK.lock();
        try {
            sum += 2;
        } finally {
            LOCK.unlock();
        }
        return failed;
    }
    static void hold() {
        LOCK.lock();
        try {
            Turns.say("held");
            Turns.await("tried");
            sum++;
        } finally {
            LOCK.unlock();
        }
    }
    public static void main(String[] words) {
        Turns.run(TimedLock::hold, () -> {
            Turns.await("held");
            System.out.println(add() + " " + sum);
        });
    }
}
