/** Threads that are started, and that meet. It is left out of the log (skip=Meet), so no event is in the order that it gives. */
final class Meet {
    interface Body {
        void run(int me) throws Exception;
    }

    private static volatile int here;
    private static volatile boolean open;
    private static volatile int turn, answered;
    private static final long MOST_NANOSECONDS = 20_000_000_000L;

    /** A class that isn't logged, and clones objects of those below it that are. */
    static class Base implements Cloneable {
        Base copy() {
            try {
                return (Base) clone();
            } catch (CloneNotSupportedException impossible) {
                throw new AssertionError(impossible);
            }
        }
    }

    private Meet() { }

    /** Runs the body in so many threads, each with its number from 0, and waits for their ends. */
    static void run(int threads, Body body) throws Exception {
        Thread[] all = new Thread[threads];
        Throwable[] failed = new Throwable[1];
        for (int one = 0; one < threads; one++) {
            int me = one;
            all[one] = new Thread(() -> {
                try {
                    body.run(me);
                } catch (Throwable wrong) {
                    failed[0] = wrong;
                }
            });
            all[one].start();
        }
        for (Thread one : all) one.join();
        if (failed[0] != null) throw new AssertionError(failed[0]);
    }

    /** Returns once both of two threads are here. */
    static void both() { all(2); }

    /** Returns once all of so many threads are here. */
    static void all(int threads) {
        int number;
        synchronized (Meet.class) {
            number = ++here;
        }
        int full = (number + threads - 1) / threads * threads;
        while (here < full) Thread.yield();
    }

    static void open() { open = true; }
    static boolean isOpen() { return open; }

    static void done() { answered = 1; }
    static boolean untilDone() { return isAnswered(1); }

    static void turn(int number) { turn = number; }
    static void untilTurn(int number) {
        while (turn < number) Thread.yield();
    }
    static void answer(int number) { answered = number; }
    /** Whether the turn is answered, now or within twenty seconds: a program that is logged wrongly would wait for ever. */
    static boolean isAnswered(int number) {
        long start = System.nanoTime();
        while (answered < number && System.nanoTime() - start < MOST_NANOSECONDS) Thread.yield();
        return answered >= number;
    }

    /** Returns once the thread is stuck so. */
    static void untilStuck(Thread thread, Thread.State how) {
        while (thread.getState() != how && thread.getState() != Thread.State.TERMINATED) Thread.yield();
    }
}
