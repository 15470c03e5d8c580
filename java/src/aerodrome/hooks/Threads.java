package aerodrome.hooks;

import aerodrome.log.Log;
import aerodrome.log.LoggedThread;
import aerodrome.names.Numbers;
import aerodrome.names.Site;
import aerodrome.names.Text;

/** Starts and ends of threads, and the program's end. The JDK's own methods call these, whoever starts a thread. */
public final class Threads {
    private static final byte[] FORK = Text.bytes("fork(T"), JOIN = Text.bytes("join(T");

    private Threads() { }

    private static void write(LoggedThread me, byte[] operation, LoggedThread other) {
        me.line.begin().put(operation).put(other.number);
        Events.end(me.line, Site.NOWHERE);
        Log.write(me.line);
    }

    public static void starts(Thread thread) {
        LoggedThread me = LoggedThread.logging();
        if (me == null || thread.isAlive() || Numbers.tied(thread) != null) return;
        LoggedThread other = LoggedThread.of(thread);
        other.startedBy(me, thread);
        write(me, FORK, other);
    }

    public static void ends() {
        if (Log.on) LoggedThread.current().end();
    }

    /** While a thread waits for the end of another, it gives the other's monitor back, if it holds that. */
    public static void joining(Thread thread) {
        LoggedThread me = LoggedThread.logging();
        if (me != null) me.gaveBack = Events.release(me, thread, Integer.MAX_VALUE, Site.NOWHERE);
    }

    public static void joined(Thread thread) {
        LoggedThread me = LoggedThread.logging();
        if (me == null) return;
        Events.acquire(me, thread, me.gaveBack, Site.NOWHERE);
        me.gaveBack = 0;
        LoggedThread other = (LoggedThread) Numbers.tied(thread);
        if (other != null && other != me && !thread.isAlive()) write(me, JOIN, other);
    }

    /**
     * Ends the blocks of the thread that ends the program, before it starts the program's own hooks for that and waits for them. (A thread
     * of the system's that has no number gets none.)
     */
    public static void leaves() {
        if (Numbers.tied(Thread.currentThread()) != null) Blocks.leave(0, Site.NOWHERE);
    }

    /** Writes the log out: the program has ended, and its own hooks for that too. One that halts has left no block yet. */
    public static void finish() {
        leaves();
        Log.finish();
    }
}
