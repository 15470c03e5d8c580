/** The first thread that is between lets the other thread do all its work, and waits for that. */
class Turns {
    static volatile boolean isFirstBetween, isOtherDone;

    static void between() {
        if (isFirstBetween) return;
        isFirstBetween = true;
        while (!isOtherDone) Thread.yield();
    }

    static Thread other(Runnable work) {
        isFirstBetween = isOtherDone = false;
        return new Thread(() -> {
            while (!isFirstBetween) Thread.yield();
            work.run();
            isOtherDone = true;
        });
    }
}
