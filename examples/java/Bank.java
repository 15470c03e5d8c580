import java.util.concurrent.atomic.AtomicInteger;

/** Two threads withdraw from one account of 100. Each withdrawal is allowed, and both together overdraw the account. */
public class Bank {
    private static int balance = 100;

    static synchronized int balance() { return balance; }
    static synchronized void subtract(int amount) { balance -= amount; }

    static boolean withdraw(int amount) {
        if (balance() < amount || !Approval.both()) return false;      // locks, reads, unlocks
        subtract(amount);                                              // locks again
        return true;
    }
    public static void main(String[] words) throws Exception {
        Thread other = new Thread(() -> withdraw(70));
        other.start();
        withdraw(60);
        other.join();
        System.out.println("balance " + balance());
    }
}

/** Waits until both withdrawals have asked, so that they overlap in every run. The option skip=Approval keeps it out of the log. */
class Approval {
    private static final AtomicInteger asked = new AtomicInteger();
    static boolean both() {
        asked.incrementAndGet();
        while (asked.get() < 2) Thread.yield();
        return true;
    }
}
