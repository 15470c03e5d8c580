package aerodrome.hooks;

import aerodrome.log.Line;
import aerodrome.log.Log;
import aerodrome.log.LoggedThread;
import aerodrome.names.ClassNames;
import aerodrome.names.Numbers;
import aerodrome.names.Text;
import java.util.concurrent.CountDownLatch;

/**
 * What threads do to an object that doesn't depend on their order, such as additions, and looks at all of it. Who adds writes
 * `all.N`, where N goes by the thread, and reads `look.N` of all threads that have looked. Who looks reads `all.N` of all threads
 * that have added, and writes `look.N`. Who only waits for others reads `all.N` alone. So neither two additions nor two looks
 * conflict.
 */
final class Parts {
    private static final byte[] ALL = Text.bytes(".all"), LOOK = Text.bytes(".look");

    /** The threads that have added, and those that have looked, as bits. The log's lock is held. */
    private long added, looked;
    /** How often a latch may be counted down until it is open; below 0 where that isn't known yet. */
    private long left = -1;

    private Parts() { }

    /** Those of a thread are with what is known of it, and null where nothing is known, as it hasn't been started. */
    static Parts of(Object object) {
        Numbers.Entry entry = Numbers.entry(object);
        if (object instanceof Thread) {
            LoggedThread thread = (LoggedThread) entry.tied;
            if (thread != null && thread.parts.get() == null) thread.parts.compareAndSet(null, new Parts());
            return thread == null ? null : (Parts) thread.parts.get();
        }
        if (entry.tied instanceof Parts) return (Parts) entry.tied;
        synchronized (entry) {
            if (!(entry.tied instanceof Parts)) entry.tied = new Parts();
            return (Parts) entry.tied;
        }
    }

    // ---- lines under the log's lock, which is kept

    void readLooks(LoggedThread me, Object object, int site) { each(me, looked, object, LOOK, site); }
    void add(LoggedThread me, Object object, int site) {
        added |= me.bit();
        append(me, Events.WRITE, object, ALL, me.group(), site);
    }
    void look(LoggedThread me, Object object, int site) {
        readAdded(me, object, site);
        looked |= me.bit();
        append(me, Events.WRITE, object, LOOK, me.group(), site);
    }
    private void readAdded(LoggedThread me, Object object, int site) { each(me, added, object, ALL, site); }

    private static void each(LoggedThread me, long threads, Object object, byte[] part, int site) {
        for (long left = threads; left != 0; left &= left - 1)
            append(me, Events.READ, object, part, Long.numberOfTrailingZeros(left), site);
    }
    private static void append(LoggedThread me, byte[] operation, Object object, byte[] part, long number, int site) {
        Line line = me.line.begin().put(operation).put(ClassNames.of(object.getClass())).put('@').put(Numbers.of(object));
        Events.end(line.put(part).put(number), site);
        Log.append(line);
    }

    // ---- calls

    /** How a call is logged: an addition, a look, both, or a wait for others. */
    enum Way { ADDS, LOOKS, RESETS, WAITS }

    /** Writes the lines of a call, and keeps the log's lock. */
    static void hold(LoggedThread me, Object object, Way way, int site) {
        Parts parts = of(object);
        if (parts == null) return;
        // Not under the lock: the object gets its number, and its class its name.
        Numbers.of(object);
        ClassNames.of(object.getClass());
        Log.lock();
        try {
            if (way == Way.ADDS || way == Way.RESETS) parts.readLooks(me, object, site);
            if (way == Way.LOOKS || way == Way.RESETS) parts.look(me, object, site);
            if (way == Way.WAITS) parts.readAdded(me, object, site);
            if (way == Way.ADDS || way == Way.RESETS) parts.add(me, object, site);
        } catch (Throwable full) {
            Log.unlock();
            throw full;
        }
    }
    static void write(LoggedThread me, Object object, Way way, int site) {
        hold(me, object, way, site);
        Log.unlock();
    }

    /** Nobody waits for what counts an open latch down, which changes nothing. */
    static void countDown(LoggedThread me, CountDownLatch latch, int site) {
        Parts parts = of(latch);
        me.isQuiet = true;
        try {
            synchronized (parts) {
                if (parts.left < 0) parts.left = latch.getCount();
                if (parts.left == 0) return;
                parts.left--;
            }
        } finally {
            me.isQuiet = false;
        }
        write(me, latch, Way.ADDS, site);
    }
}
