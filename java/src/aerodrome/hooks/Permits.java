package aerodrome.hooks;

import aerodrome.log.Line;
import aerodrome.log.Log;
import aerodrome.log.LoggedThread;
import aerodrome.names.Numbers;
import aerodrome.names.Text;
import java.util.HashMap;
import java.util.Map;
import java.util.TreeMap;
import java.util.concurrent.Semaphore;

/**
 * The permits of a semaphore. A release writes `permit.N` before the call, where N is the last permit that it gave. Who acquires
 * permits reads, behind the call, each release without which there would be too few: one that gave more permits than are left. So
 * who takes the last permit reads all releases that may have given it, and who leaves enough for others reads none. Releases that
 * were read so are used up, but for as many permits as are left. Of one permit each user comes behind the one before, and those who
 * have a permit at the same time don't conflict.
 */
final class Permits {
    private static final byte[] PERMIT = Text.bytes(".permit");

    /** How many there are by the log, and how many were released in all. */
    private long left, released;
    /**
     * The releases that aren't used up, by thread, and then by how many of their permits may be left: the last one, which comes
     * behind the thread's others.
     */
    private final Map<Integer, TreeMap<Long, Long>> open = new HashMap<>();
    /** No release has more that may be left. */
    private long most;

    private Permits(long first) { left = first; }

    /** Before the semaphore's first call, and later. Its number of permits may be told by code of the program. */
    static Permits of(LoggedThread me, Object semaphore) {
        Numbers.Entry entry = Numbers.entry(semaphore);
        if (entry.tied instanceof Permits) return (Permits) entry.tied;
        Permits made;
        me.isQuiet = true;
        try {
            made = new Permits(((Semaphore) semaphore).availablePermits());
        } finally {
            me.isQuiet = false;
        }
        synchronized (entry) {
            if (!(entry.tied instanceof Permits)) entry.tied = made;
            return (Permits) entry.tied;
        }
    }

    synchronized void release(LoggedThread me, Object semaphore, long count, int site) {
        if (count <= 0) return;
        left += count;
        released += count;
        open.computeIfAbsent(me.number, one -> new TreeMap<>()).put(count, released);
        most = Math.max(most, count);
        write(me, Events.WRITE, semaphore, released, site);
    }

    /** What code that isn't logged has released, or acquired, isn't known: more can't be acquired than there were. */
    synchronized void acquire(LoggedThread me, Object semaphore, long count, int site) {
        if (count <= 0) return;
        left = Math.max(left - count, 0);
        if (left >= most) return;
        for (TreeMap<Long, Long> releases : open.values()) {
            Map<Long, Long> needed = releases.tailMap(left, false);
            if (needed.isEmpty()) continue;
            long last = 0;
            for (long one : needed.values()) last = Math.max(last, one);
            needed.clear();
            if (left > 0) releases.merge(left, last, Math::max);
            write(me, Events.READ, semaphore, last, site);
        }
        open.values().removeIf(Map::isEmpty);
        most = left;
    }

    private static void write(LoggedThread me, byte[] operation, Object semaphore, long number, int site) {
        Line line = Events.putObject(me.line.begin().put(operation), semaphore).put(PERMIT).put(number);
        Events.end(line, site);
        Log.write(line);
    }
}
