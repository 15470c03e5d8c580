class Shared {
    static volatile int value, steps;
    static volatile boolean isStopped;

    /** A block that ends when it is told to. */
    static void runsOn() {
        while (!isStopped) {
            value++;
            pause();
        }
    }
    static void pause() {
        try {
            Thread.sleep(1);
        } catch (InterruptedException goOn) {
            // It was long enough.
        }
    }

    /** Waits between its accesses until another thread has written. */
    static void addLater() {
        int before = value;
        while (value == before) pause();
        value = before + 1;
    }

    /** The same, and says that it waits. */
    static void addLate(int until) {
        int before = value;
        steps++;
        while (steps < until) pause();
        value = before + 1;
    }

    /** Writes between the accesses of the other. */
    static void addBetween(int from, int to) {
        while (steps < from) pause();
        value++;
        steps = to;
    }
}
