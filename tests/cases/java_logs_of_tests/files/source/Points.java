/** A thread that is `next` to a turn waits until it is now. */
class Points {
    static volatile int now, waiting;

    static void next(int turn) {
        waiting = turn;
        while (now < turn) Thread.yield();
    }
    static void await(int turn) {
        while (waiting < turn) Thread.yield();
    }
}
