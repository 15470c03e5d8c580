package aerodrome.log;

import aerodrome.Options;
import aerodrome.names.Fields;
import java.io.FileDescriptor;
import java.io.FileOutputStream;
import java.io.IOException;
import java.lang.invoke.MethodHandles;
import java.lang.invoke.VarHandle;
import java.nio.charset.StandardCharsets;

/**
 * The log and its one order. A line is written under the log's lock, and an access is made under the same lock, just behind its
 * line: so the log has accesses in the order in which they happened, also where they race. Nothing that waits, no code of the
 * program and no class's loading comes under the lock.
 */
public final class Log {
    /** Whether events are logged: from the end of the agent's start to the program's end, or to the first error. */
    public static volatile boolean on;
    /** The number of the test whose log is written; 0 where that is the program's, and between tests, when no log is. */
    static volatile int test;

    private static volatile Thread holder;
    private static final VarHandle HOLDER;
    static {
        try {
            HOLDER = MethodHandles.lookup().findStaticVarHandle(Log.class, "holder", Thread.class);
        } catch (ReflectiveOperationException impossible) {
            throw new ExceptionInInitializerError(impossible);
        }
    }
    private static final int SPINS = 50;
    /** In nanoseconds: how long a thread waits for the lock while no line is written; the most that one look at the clock adds. */
    private static final long MOST_WAIT = 10_000_000_000L, MOST_STEP = 10_000_000L;
    /** How many bytes of lines are written at once, behind which there is room for a mark. */
    private static final int PART = 1 << 20;
    private static final byte[] BUFFER = new byte[PART + Sink.MOST_MARK];
    private static int used;
    private static long written, limit;
    /** Null between tests. */
    private static Sink sink;
    private static boolean finished;
    /** Whether a block has begun in the log. */
    private static boolean hasBlock;
    /** How many tests have had logs, and whether no more is written to the log of this one. */
    private static int tests;
    private static boolean isCut;
    /** Whether the sink is being written to, which may take as long as its reader likes. */
    private static volatile boolean isFlushing;
    /** Whether a thread has kept the lock for ever: so nothing more is logged, and, once what was is written out, it is no lock. */
    private static volatile boolean isGivenUp, isStuck;

    private Log() { }

    /** @param most how many bytes are written; 0 is any number, and below 0 what fits the sink */
    public static void start(Sink to, long most) {
        long fitting = most < 0 ? to.limit() : most;
        lock();
        sink = to;
        limit = fitting;
        written = used = 0;
        isCut = false;
        if (Options.isOfTests) test = ++tests;
        unlock();
    }

    /** Writes the log of a test out and closes it, if the program hasn't ended meanwhile. Returns whether it is whole. */
    static boolean endTest() throws IOException {
        lock();
        Sink ended = finished ? null : sink;
        if (on) flush();
        boolean isWhole = on && !isCut;
        test = 0;
        sink = finished ? sink : null;
        unlock();
        if (ended == null) return isWhole;
        // The extension says of a log that it has no block.
        if (isWhole) ended.unmark();
        ended.close();
        return isWhole;
    }

    // ---- the lock

    /** A thread that has the lock still, since an error such as a full stack came between, goes on with it. */
    public static void lock() {
        Thread me = Thread.currentThread();
        if (holder == me) return;
        for (int tries = 0; holder != null || !HOLDER.compareAndSet((Thread) null, me); tries++) {
            if (tries < SPINS) {
                Thread.onSpinWait();
                continue;
            }
            waitForHolder();
            if (isStuck) return;
        }
    }

    /**
     * Until the lock may be free. Nothing that waits comes under it, as far as anybody knows; should it happen, the program has to
     * go on, and what was logged is written out. Time in which the process is stopped isn't counted.
     */
    private static void waitForHolder() {
        Thread first = holder;
        long before = written + used, waited = 0, last = System.nanoTime();
        while (first != null && holder == first && !isStuck) {
            Thread.yield();
            long now = System.nanoTime();
            waited = isFlushing || written + used != before ? 0 : waited + Math.min(now - last, MOST_STEP);
            before = written + used;
            last = now;
            if (waited > MOST_WAIT) giveUp(first);
        }
    }
    private static synchronized void giveUp(Thread on) {
        if (isGivenUp || holder != on) return;
        isGivenUp = true;
        flush();
        if (Log.on) stop("lock", "thread " + on.getName() + " waits within an access");
        isStuck = true;
    }

    /** Does nothing where the thread hasn't the lock, since it wrote no line. */
    public static void unlock() {
        if (holder != Thread.currentThread()) return;
        try {
            HOLDER.setRelease((Thread) null);
        } catch (StackOverflowError full) {
            holder = null;
        }
    }

    /** Writes the thread's line as one event. */
    public static void write(Line line) {
        lock();
        try {
            append(line);
        } finally {
            // Even where the stack is too full for a call.
            try {
                HOLDER.setRelease((Thread) null);
            } catch (StackOverflowError full) {
                holder = null;
            }
        }
    }

    /** Writes the line and keeps the lock, for the access behind it. */
    public static void hold(Line line) {
        lock();
        try {
            append(line);
        } catch (Throwable full) {
            unlock();
            throw full;
        }
    }

    /** Says once that a block has begun. */
    public static void noteBlock() {
        if (!hasBlock) hasBlock = true;
    }

    /** Writes the line; the lock is held. */
    public static void append(Line line) {
        if (!takes(line)) return;
        if (limit > 0 && written + used + line.length + Sink.MOST_MARK > limit) {
            flush();
            if (takes(line)) stop("limit", "AERODROME_LIMIT is reached");
            return;
        }
        if (used + line.length > PART) flush();
        if (!takes(line)) return;
        System.arraycopy(line.bytes, 0, BUFFER, used, line.length);
        used += line.length;
        line.isWritten = true;
    }

    private static boolean takes(Line line) { return on && !isGivenUp && !isCut && sink != null && line.test == test; }

    private static void flush() {
        if (sink == null || isCut) return;
        isFlushing = true;
        try {
            sink.write(BUFFER, used);
            written += used;
        } catch (IOException wrong) {
            stop("write", Sink.why(wrong));
        }
        used = 0;
        isFlushing = false;
    }

    // ---- the end

    /** Writes the log out, and waits for the command that reads it. */
    public static void finish() {
        lock();
        boolean isFirst = !finished && (sink != null || Options.isOfTests);
        finished = true;
        if (isFirst && on) {
            flush();
            for (String one : Options.blocksNotMet()) say(one);
        }
        // Not where the rest couldn't be written.
        boolean isWhole = on && !isCut;
        on = false;
        unlock();
        if (!isFirst) return;
        Counted.sayTheRest();
        boolean isEmpty = isWhole && !Options.isOfTests && written == 0;
        if (isWhole) tellOfLittle();
        try {
            ThreadName.write();
        } catch (IOException wrong) {
            say("threads=" + Options.threads + ": " + Sink.why(wrong));
        }
        if (sink == null) return;
        try {
            if (isEmpty) {
                sink.drop();
                return;
            }
            if (isWhole) sink.unmark();
            sink.close();
        } catch (IOException wrong) {
            say(sink.target + ": " + Sink.why(wrong));
        }
    }

    /** A log without a line, or without a block, would be taken for one without a violation. */
    private static void tellOfLittle() {
        if (Options.isOfTests) {
            if (!TestLog.isAsked) say("log=" + Options.log + ": no test that has @Atomicity was run: nothing is logged");
            return;
        }
        String what = written == 0 ? "nothing is logged" : "no block is logged";
        if (Fields.areNone()) say(Options.whyNoClass() + ": " + what);
        else if (written == 0) say("no code of the program did anything that is logged: " + what);
        else if (!hasBlock && Options.hasBlocks()) say("no method that is a block was called: " + what);
    }

    /** The agent can't log: leaves no log. */
    public static void abandon() {
        Sink to = sink;
        sink = null;
        try {
            if (to != null) to.drop();
        } catch (IOException wrong) {
            say(to.target + ": " + Sink.why(wrong));
        }
    }

    /** What was logged is written out, and nothing more is logged. */
    static void end(String cause, String why) {
        lock();
        if (on) {
            flush();
            if (on) stop(cause, why);
        }
        unlock();
    }

    /** The log of a test ends, or all logging. The log has the cause as a mark, behind what fits of the lines that aren't written. */
    private static void stop(String cause, String why) {
        if (Options.isOfTests && !isGivenUp) isCut = true;
        else on = false;
        if (sink != null) sink.cut(cause, BUFFER, used);
        say((sink == null ? Options.log : sink.target) + ": " + why + ": the rest isn't logged");
    }

    /** Past System.err, which may be the program's own. It is made at the start, as a SecurityManager may forbid it later. */
    private static final FileOutputStream ERROR = new FileOutputStream(FileDescriptor.err);

    public static void say(String what) {
        byte[] text = ("aerodrome-agent: " + what + "\n").getBytes(StandardCharsets.UTF_8);
        try {
            ERROR.write(text);
        } catch (IOException cannot) {
            // There is nobody else to tell.
        }
    }
}
