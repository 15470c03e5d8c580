// V: a wait that an interrupt ends: another thread has had the monitor in between
public class InterruptedWait {
    static final Object LOCK = new Object();
    static int count;
    static void waits() {
        synchronized (LOCK) {
            try {
                LOCK.wait();
            } catch (InterruptedException expected) {
                count++;
            }
        }
    }
    static void add() {
        synchronized (LOCK) {
            count += 2;
        }
    }
    public static void main(String[] words) throws InterruptedException {
        Thread waiting = new Thread(InterruptedWait::waits);
        waiting.start();
        Meet.untilStuck(waiting, Thread.State.WAITING);
        add();
        waiting.interrupt();
        waiting.join();
        System.out.println(count);
    }
}
