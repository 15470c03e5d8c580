import java.util.concurrent.locks.ReentrantLock;

// S: a thread is interrupted while it waits for a lock, leaves its block without an event of the lock, and tries again later
public class GivesUpLock {
    private final ReentrantLock lock = new ReentrantLock();
    private int printed;
    private int givenUp;

    void print(Runnable within) throws InterruptedException {
        lock.lockInterruptibly();
        try {
            within.run();
            printed++;
        } finally {
            lock.unlock();
        }
    }

    public static void main(String[] words) throws Exception {
        GivesUpLock printer = new GivesUpLock();
        Thread impatient = new Thread(() -> {
            for (int one = 0; one < 2; one++) {
                try {
                    printer.print(() -> { });
                } catch (InterruptedException enough) {
                    printer.givenUp++;
                    Turns.say("printer is given up");
                    Turns.await("printer is free");
                }
            }
        });
        printer.print(() -> {
            impatient.start();
            while (!printer.lock.hasQueuedThread(impatient)) Thread.yield();
            impatient.interrupt();
            Turns.await("printer is given up");
        });
        Turns.say("printer is free");
        impatient.join();
        System.out.println(printer.printed + " " + printer.givenUp);
    }
}
