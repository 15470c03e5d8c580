package aerodrome.log;

import aerodrome.Options;
import aerodrome.names.Numbers;
import java.io.IOException;
import java.util.ArrayList;
import java.util.HashMap;
import java.util.List;
import java.util.Map;
import java.util.Queue;
import java.util.Set;
import java.util.concurrent.ConcurrentHashMap;
import java.util.concurrent.ConcurrentLinkedQueue;

/**
 * The log of the test that runs, for a path with `%t`. It has the events of the thread that runs the test, of the threads that the
 * test starts, and of those that were started outside of tests. A thread of another test is left out, until it runs a task that
 * this test gives it.
 */
public final class TestLog {
    /** How long the end of a test waits for the test's threads, in nanoseconds. */
    private static final long WAIT = 1_000_000_000L;
    /** Methods of the JDK in which a thread of a pool waits for a task. */
    private static final Set<String> IDLE = Set.of(
            "java.util.concurrent.ThreadPoolExecutor.getTask", "java.util.concurrent.ForkJoinPool.awaitWork",
            "java.util.TimerThread.mainLoop");
    private static final int MOST_NAME = 200;

    /** How many logs there are of tests of one name. */
    private static final Map<String, Integer> NAMES = new HashMap<>();
    /** The threads that run in the test, and the numbers of the tasks that it gave and no thread has taken, with how often. */
    private static final Queue<Thread> THREADS = new ConcurrentLinkedQueue<>();
    private static final Map<Long, Integer> TASKS = new ConcurrentHashMap<>();
    /** The path of the log that is written now, or null. */
    private static String path;
    private static boolean isShared, isWhole;
    /** Whether a test has asked for a log, even if it got none. */
    static volatile boolean isAsked;

    private TestLog() { }

    /** A test that has the extension is about to run. */
    public static void asks() { isAsked = true; }

    /** Begins the log of a test, and returns its path. An exception says why it can't. */
    public static synchronized String begin(String name) throws IOException {
        asks();
        if (!Log.on) throw new IOException("the agent logs nothing: its line on standard error says why");
        if (!Options.isOfTests)
            throw new IOException("log=" + Options.log + " is one log of all tests: use %t, as in log=logs/%t.std");
        if (path != null) {
            isShared = true;
            throw new IOException("another test runs at the same time");
        }
        String file = Options.log.replace("%t", unique(clean(name)));
        Sink to;
        try {
            to = Sink.open(file);
        } catch (IOException cannot) {
            throw new IOException(file + ": " + Sink.why(cannot));
        }
        path = file;
        isShared = false;
        THREADS.clear();
        TASKS.clear();
        LoggedThread.current().runsTest();
        Log.start(to, Options.limit);
        return path;
    }
    private static String unique(String name) {
        int count = NAMES.merge(name, 1, Integer::sum);
        return count == 1 ? name : name + "-" + count;
    }
    /** The name as a part of the name of a file. */
    private static String clean(String name) {
        String clean = name.replaceAll("[^A-Za-z0-9._$-]", "_");
        return clean.length() <= MOST_NAME ? clean : clean.substring(0, MOST_NAME) + "~" + Integer.toHexString(name.hashCode());
    }

    /**
     * Waits a second at most for the threads of the test, and closes its log. Returns the threads that still run, such as
     * `T3 (worker)`, except those of pools that wait for a task. An exception says why the log can't be judged.
     */
    public static List<String> end() throws IOException {
        long first = System.nanoTime();
        List<String> running = running();
        while (!running.isEmpty() && System.nanoTime() - first < WAIT && pause()) running = running();
        synchronized (TestLog.class) {
            path = null;
            isWhole = Log.endTest();
            if (isShared) throw new IOException("another test ran at the same time");
        }
        return running;
    }
    /** Whether the log that ended last has all events of its test. */
    public static synchronized boolean isWhole() { return isWhole; }
    /** Not where the thread is interrupted, which it stays. */
    private static boolean pause() {
        try {
            Thread.sleep(1);
            return true;
        } catch (InterruptedException stop) {
            Thread.currentThread().interrupt();
            return false;
        }
    }
    private static List<String> running() {
        List<String> names = new ArrayList<>();
        for (Thread one : THREADS)
            if (one.isAlive() && !isIdle(one)) names.add("T" + LoggedThread.of(one).number + " (" + one.getName() + ")");
        return names;
    }
    private static boolean isIdle(Thread thread) {
        for (StackTraceElement frame : thread.getStackTrace())
            if (IDLE.contains(frame.getClassName() + "." + frame.getMethodName())) return true;
        return false;
    }

    // ---- what LoggedThread reports

    static void runs(Thread thread) { THREADS.add(thread); }
    static void given(Object task) { TASKS.merge(Numbers.of(task), 1, Integer::sum); }
    /** Whether the test gave the task, which a thread takes now. */
    static boolean isTaken(Object task) {
        long number = Numbers.of(task);
        boolean isGiven = TASKS.containsKey(number);
        TASKS.computeIfPresent(number, (one, count) -> count == 1 ? null : count - 1);
        return isGiven;
    }
}
