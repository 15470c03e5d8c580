package aerodrome.hooks;

import aerodrome.log.Line;
import aerodrome.log.Log;
import aerodrome.log.LoggedThread;
import aerodrome.names.Numbers;
import aerodrome.names.Site;
import aerodrome.names.Text;
import java.util.ArrayDeque;
import java.util.Collection;
import java.util.HashMap;
import java.util.List;
import java.util.Map;

/**
 * Tasks that go to a thread of a pool, and their results. The JDK's own methods call these. A program may give one object to pools
 * several times, as mailboxes do: then each time but the first has a number, so that those who give it don't conflict.
 */
public final class Tasks {
    private static final byte[] TASK = Text.bytes("task."), DONE = Text.bytes("done.");

    private Tasks() { }

    /** The tasks that were given to a pool and that no thread has taken, by their numbers: which times, the oldest first. */
    private static final class Pool {
        private final Map<Long, ArrayDeque<Integer>> waiting = new HashMap<>();

        static Pool of(Object pool) {
            Numbers.Entry entry = Numbers.entry(pool);
            synchronized (entry) {
                if (!(entry.tied instanceof Pool)) entry.tied = new Pool();
                return (Pool) entry.tied;
            }
        }

        synchronized void add(long task, int time) { waiting.computeIfAbsent(task, one -> new ArrayDeque<>(2)).add(time); }
        /** The oldest or the newest time, or 0. */
        synchronized int remove(long task, boolean isOldest) {
            ArrayDeque<Integer> times = waiting.get(task);
            if (times == null) return 0;
            int time = isOldest ? times.removeFirst() : times.removeLast();
            if (times.isEmpty()) waiting.remove(task);
            return time;
        }
    }

    // ---- tasks of a pool

    public static void gives(Object task, Object pool) {
        LoggedThread me = task == null ? null : LoggedThread.logging();
        if (me == null) return;
        me.gives(task);
        int time = Numbers.given(task);
        write(me, Events.WRITE, TASK, task, time);
        // Once the line stands there: a thread that takes the same task, given before, may come upon this one.
        Pool.of(pool).add(Numbers.of(task), time);
    }
    /** The pool takes no task any more, or not this one. */
    public static void refuses(Object task, Object pool) {
        if (Log.on && task != null) Pool.of(pool).remove(Numbers.of(task), false);
    }
    /** The program, or a task that is cancelled, may take the task out of the pool. Returns whether it did. */
    public static boolean removes(boolean isRemoved, Object task, Object pool) {
        if (Log.on && isRemoved) Pool.of(pool).remove(Numbers.of(task), true);
        return isRemoved;
    }
    /** One that runs again and again was given once. */
    public static void takes(Object task, Object pool) {
        LoggedThread me = task == null ? null : LoggedThread.logging();
        if (me == null) return;
        me.takes(task);
        int time = Pool.of(pool).remove(Numbers.of(task), true);
        if (time > 0 || Numbers.timesGiven(task) <= 1) write(me, Events.READ, TASK, task, time);
    }

    // ---- other tasks, each of which is given once

    public static void gives(Object task) {
        LoggedThread me = task == null ? null : LoggedThread.logging();
        if (me != null) me.gives(task);
        write(Events.WRITE, TASK, task);
    }
    public static void takes(Object task) {
        LoggedThread me = task == null ? null : LoggedThread.logging();
        if (me != null) me.takes(task);
        write(Events.READ, TASK, task);
    }
    // ---- results

    public static void completes(Object task) { write(Events.WRITE, DONE, task); }
    public static void sees(Object task) { write(Events.READ, DONE, task); }
    public static void seesAll(Object tasks) {
        if (Log.on) for (Object one : (Object[]) tasks) sees(one);
    }
    /** Collections of the program's classes would call its code, so they aren't looked at. */
    public static Collection<?> seenAll(Collection<?> tasks) {
        if (Log.on && tasks.getClass().getClassLoader() == null) for (Object one : tasks) sees(one);
        return tasks;
    }
    public static List<?> seenAll(List<?> tasks) {
        seenAll((Collection<?>) tasks);
        return tasks;
    }

    /** Before the step that completes a future, unless it is complete already: that is made under the log's lock. */
    public static void completing(Object future) {
        LoggedThread me = LoggedThread.logging();
        if (me == null) return;
        putLine(me, Events.WRITE, DONE, future, 1);
        me.isCompleting = true;
        Log.lock();
    }
    /** One that comes too late only reads. */
    public static void completed(boolean isDone) {
        LoggedThread me = LoggedThread.logging();
        if (me == null || !me.isCompleting) return;
        me.isCompleting = false;
        try {
            if (!isDone) me.line.setOperation('r');
            Log.append(me.line);
        } finally {
            Log.unlock();
        }
    }

    /** Before a look at whether a future is complete. */
    public static void looks(Object future) {
        LoggedThread me = LoggedThread.logging();
        if (me != null) Log.hold(putLine(me, Events.READ, DONE, future, 1));
    }
    public static void looked() { Log.unlock(); }

    /** Behind a look at the result of a future, for a stage that follows it: null if it isn't complete. */
    public static void found(Object future, Object result) {
        if (result != null) sees(future);
    }

    // ---- lines

    private static void write(byte[] operation, byte[] kind, Object task) {
        LoggedThread me = task == null ? null : LoggedThread.logging();
        if (me != null) write(me, operation, kind, task, 1);
    }
    private static void write(LoggedThread me, byte[] operation, byte[] kind, Object task, int time) {
        Log.write(putLine(me, operation, kind, task, time));
    }
    private static Line putLine(LoggedThread me, byte[] operation, byte[] kind, Object task, int time) {
        Line line = Events.putObject(me.line.begin().put(operation).put(kind), task);
        if (time > 1) line.put('.').put(time);
        Events.end(line, Site.NOWHERE);
        return line;
    }
}
