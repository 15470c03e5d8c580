package aerodrome.hooks;

import aerodrome.log.Log;
import aerodrome.log.LoggedThread;
import aerodrome.names.Site;
import aerodrome.names.Text;

/**
 * Entry and exit of methods that are blocks, of synchronized methods, and of initializers of classes. A method keeps how much was
 * open when it began. So what a StackOverflowError kept from being closed is closed by the next method that is left, or that
 * catches.
 */
public final class Blocks {
    private static final byte[] END = Text.bytes("end");

    private Blocks() { }

    /** How much is open; below 0 where the thread isn't logged. */
    public static int depth() {
        LoggedThread me = LoggedThread.logging();
        return me == null ? -1 : me.depth;
    }

    public static void begin(int site) {
        LoggedThread me = LoggedThread.logging();
        if (me == null) return;
        Site at = Site.get(site);
        me.makeRoom();
        try {
            Log.write(me.line.begin().put(at.text()).put(at.place));
        } finally {
            if (me.line.isWritten) me.open[me.depth++] = LoggedThread.BLOCK;
        }
        Log.noteBlock();
        Stir.place();
    }

    public static void enteredMethod(Object monitor, int site) {
        LoggedThread me = LoggedThread.logging();
        if (me == null) return;
        me.makeRoom();
        try {
            Events.acquire(me, monitor, 1, site);
        } finally {
            if (me.line.isWritten) me.open[me.depth++] = monitor;
        }
    }

    /** What a class's initializer does isn't logged. */
    public static void initializes() {
        LoggedThread me = LoggedThread.logging();
        if (me == null) return;
        me.makeRoom();
        me.open[me.depth++] = LoggedThread.INITIALIZER;
        me.initializing++;
    }

    public static void leave(int depth, int site) {
        LoggedThread me = depth < 0 ? null : LoggedThread.logging();
        if (me == null) return;
        boolean isClosed = true;
        while (isClosed && me.depth > depth && Log.on) isClosed = close(me, site);
    }
    /** Says whether it is closed: its line may not be in the log, which may have ended. */
    private static boolean close(LoggedThread me, int site) {
        Object what = me.open[me.depth - 1];
        boolean isClosed = what == LoggedThread.INITIALIZER || what == LoggedThread.LEFT_OUT;
        if (what == LoggedThread.INITIALIZER) me.initializing--;
        me.line.isWritten = false;
        try {
            if (what == LoggedThread.BLOCK) Log.write(me.line.begin().put(END).put(Site.get(site).place));
            else if (!isClosed) isClosed = Events.release(me, what, 1, site) == 0;
        } finally {
            isClosed |= me.line.isWritten;
            if (isClosed) me.open[--me.depth] = null;
        }
        return isClosed;
    }
    /** In a method that has opened so much itself. */
    public static void caught(int depth, int opened, int site) {
        if (depth >= 0) leave(depth + opened, site);
    }

    // ---- monitors

    /** The most frames that a hook takes, in the size of `room`. */
    private static final int ROOM = 16;

    /** Before a monitor is entered, which would stay if a hook behind that failed. So a stack that is too full fails here. */
    public static void entering() {
        if (!Log.on) return;
        Stir.place();
        room(ROOM, 0, 0, 0, 0, 0, 0, 0, 0, 0, 0, 0, 0, 0, 0, 0, 0);
    }
    private static long room(int left, long a, long b, long c, long d, long e, long f, long g, long h,
            long i, long j, long k, long l, long m, long n, long o, long p) {
        return left == 0 ? a + p : room(left - 1, b, c, d, e, f, g, h, i, j, k, l, m, n, o, p, a);
    }

    public static void entered(Object monitor, int site) {
        LoggedThread me = LoggedThread.logging();
        if (me != null) Events.acquire(me, monitor, 1, site);
    }

    public static void leaving(Object monitor, int site) {
        LoggedThread me = LoggedThread.logging();
        if (me != null && monitor != null) Events.release(me, monitor, 1, site);
    }
}
