import java.util.concurrent.Semaphore;

// V: a semaphore of one permit is taken twice: to read, and to write
public class MutexTwice {
    private final Semaphore mutex = new Semaphore(1);
    private int balance = 100;

    void withdraw(int amount) throws InterruptedException {
        mutex.acquire();
        int before = balance;
        mutex.release();
        Meet.both();
        mutex.acquire();
        balance = before - amount;
        mutex.release();
    }

    public static void main(String[] words) throws Exception {
        MutexTwice it = new MutexTwice();
        Meet.run(2, me -> it.withdraw(10));
    }
}
