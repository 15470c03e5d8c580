import java.util.concurrent.locks.LockSupport;

/** Interrupts and permits that the program has given come through, however often the thread may wait before it asks for them. */
public class Quiet {
    volatile int places;

    synchronized void pass() { places++; }

    public static void main(String[] words) {
        Quiet it = new Quiet();
        int interrupts = 0, permits = 0;
        for (int time = 0; time < 2000; time++) {
            Thread.currentThread().interrupt();
            it.pass();
            if (Thread.interrupted()) interrupts++;
            LockSupport.unpark(Thread.currentThread());
            it.pass();
            long start = System.nanoTime();
            LockSupport.parkNanos(10_000_000_000L);
            if (System.nanoTime() - start >= 5_000_000_000L) break;
            permits++;
        }
        System.out.println(interrupts + " interrupts, " + permits + " permits");
    }
}
