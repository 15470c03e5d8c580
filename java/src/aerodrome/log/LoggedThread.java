package aerodrome.log;

import aerodrome.Options;
import aerodrome.names.Numbers;
import java.util.Arrays;
import java.util.concurrent.atomic.AtomicInteger;
import java.util.concurrent.atomic.AtomicReference;

/** What is known of a thread. The threads are T1, T2, .. in the order in which they were started. */
public final class LoggedThread {
    private static final AtomicInteger LAST = new AtomicInteger();
    private static final ThreadLocal<LoggedThread> MINE = new ThreadLocal<LoggedThread>() {
        @Override protected LoggedThread initialValue() { return of(Thread.currentThread()); }
    };
    /** GROUPS: see group(); MOST: threads that the checker takes, less the one of the mark of a log that was cut. */
    private static final int GROUPS = 64, MOST = 65_535;

    /** From 1; no two threads ever have the same. */
    public final int number = LAST.incrementAndGet();
    public final Line line = new Line(number);
    public final HeldLocks held = new HeldLocks();
    /** In how many initializers of classes it is. */
    public int initializing;
    /** Whether it is in code of the program that a hook calls. */
    public boolean isQuiet;
    /** The call by which it is about to arrive at a barrier, or null. */
    public Object arriving;
    /** Whether it is about to complete a future, by a line that is made already. */
    public boolean isCompleting;
    /** How often it held the monitor that Thread.join has given back. */
    public int gaveBack;
    /** How many places it has come to where it might have waited, and what the next wait follows from; hooks/Stir.java. */
    public long places, random;
    private final ThreadName name;
    /** What hooks/Parts.java has of it. */
    public final AtomicReference<Object> parts = new AtomicReference<>();
    private volatile boolean ended;
    /** The test whose log it looked for last. */
    private int seen;
    /** The test in which it was started, or in which it has run a task; 0 if it was started outside of tests. */
    private volatile int home;
    /** In the place of a test's number: the thread belongs to another test. */
    private static final int APART = -1;

    private LoggedThread(Thread thread) {
        name = ThreadName.of(number, thread);
        if (number > MOST && !Options.isOfTests) Log.end("threads", "more than " + MOST + " threads");
    }

    public static LoggedThread current() { return MINE.get(); }

    /** Returns a line of this thread for another one, which writes it while this thread waits in a call. */
    public Line lineForAnother() { return new Line(number, line.test); }

    /** The thread that calls, or null where what it does isn't logged. */
    public static LoggedThread logging() {
        if (!Log.on) return null;
        LoggedThread me = MINE.get();
        int test = Log.test;
        if (me.seen != test) me.turnTo(test);
        return me.ended || me.isQuiet ? null : me;
    }

    // ---- the logs of tests. Each is a part of what a log of the whole program would have.

    /** The log has changed. By the new one no block is open that began before, and no lock is held that was acquired before. */
    private void turnTo(int test) {
        held.clear();
        for (int one = 0; one < depth; one++) if (open[one] != INITIALIZER) open[one] = LEFT_OUT;
        places = 0;
        line.test = home == 0 || home == test ? test : APART;
        seen = test;
    }

    /** Before it runs: another thread starts it. */
    public void startedBy(LoggedThread other, Thread thread) {
        home = other.line.test == APART ? other.home : other.line.test;
        if (home != 0 && home == other.line.test) TestLog.runs(thread);
    }

    /** It gives a task to another thread. */
    public void gives(Object task) {
        if (line.test > 0) TestLog.given(task);
    }

    /** It takes a task. If a thread of the running test has given that, the thread belongs to this test from now on. */
    public void takes(Object task) {
        if (seen == 0 || !TestLog.isTaken(task) || home == 0 || home == seen) return;
        home = seen;
        line.test = seen;
        TestLog.runs(Thread.currentThread());
    }

    /** It runs a test, so it belongs to no other. */
    void runsTest() {
        home = 0;
        seen = APART;
    }

    /** The same for an access. What a class's initializer does isn't logged: the system runs it once, before others see it. */
    public static LoggedThread accessing() {
        LoggedThread me = logging();
        return me == null || me.initializing > 0 ? null : me;
    }

    /** That of a thread that may not have run yet. */
    public static LoggedThread of(Thread thread) {
        Numbers.Entry entry = Numbers.entry(thread);
        LoggedThread known = (LoggedThread) entry.tied;
        if (known != null) return known;
        synchronized (entry) {
            if (entry.tied == null) entry.tied = new LoggedThread(thread);
            return (LoggedThread) entry.tied;
        }
    }

    /** Nothing more is logged of it. */
    public void end() {
        ended = true;
        if (name != null) name.note();
    }

    /** A number below `groups()`, which few other threads have. */
    public int group() { return number % GROUPS; }
    /** The same as a bit of 64. */
    public long bit() { return 1L << group(); }

    // ---- what is open. It is kept without a call, for which a stack might be too full, once an event is written.

    public static final Object BLOCK = new Object(), INITIALIZER = new Object();
    /** What began before the log did. */
    public static final Object LEFT_OUT = new Object();
    /** Synchronized methods stand here by their objects. */
    public Object[] open = new Object[16];
    public int depth;

    /** For one more. */
    public void makeRoom() {
        if (depth == open.length) open = Arrays.copyOf(open, 2 * depth);
        line.isWritten = false;
    }
}
