import java.util.concurrent.locks.ReentrantLock;
import java.util.function.BooleanSupplier;

// S: a retry fails to get the lock, which has no event, and then gets it once
public class TriesForLock {
    private final ReentrantLock lock = new ReentrantLock();
    private int money;

    boolean retry(int times, BooleanSupplier attempt) {
        for (int one = 0; one < times; one++) {
            if (attempt.getAsBoolean()) return true;
            Turns.say("failed");
            Turns.await("free");
        }
        return false;
    }

    boolean tryDeposit(int amount) {
        if (!lock.tryLock()) return false;
        try {
            money += amount;
            return true;
        } finally {
            lock.unlock();
        }
    }

    void collectInterest() {
        lock.lock();
        try {
            Turns.say("held");
            Turns.await("failed");
            money += money / 10;
        } finally {
            lock.unlock();
        }
    }

    public static void main(String[] words) {
        TriesForLock account = new TriesForLock();
        account.tryDeposit(50);
        Turns.run(() -> {
            account.collectInterest();
            Turns.say("free");
        }, () -> {
            Turns.await("held");
            System.out.println(account.retry(3, () -> account.tryDeposit(20)));
        });
        System.out.println(account.money);
    }
}
