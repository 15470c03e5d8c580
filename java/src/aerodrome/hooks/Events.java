package aerodrome.hooks;

import aerodrome.log.Line;
import aerodrome.log.Log;
import aerodrome.log.LoggedThread;
import aerodrome.names.ClassNames;
import aerodrome.names.Numbers;
import aerodrome.names.Site;
import aerodrome.names.Text;

/** Lines that several kinds of hooks write. */
final class Events {
    static final byte[] READ = Text.bytes("r("), WRITE = Text.bytes("w(");
    private static final byte[] ACQUIRE = Text.bytes("acq("), RELEASE = Text.bytes("rel(");

    private Events() { }

    /** Puts what the object is called: `Bank@12`, or `bank.Bank.class` of a class. */
    static Line putObject(Line line, Object object) {
        if (object instanceof Class) return line.put(ClassNames.monitor((Class<?>) object));
        return line.put(ClassNames.of(object.getClass())).put('@').put(Numbers.of(object));
    }

    static void end(Line line, int site) { line.put(')').put(Site.get(site).place); }

    /** Writes the operation on a variable that stands for the object, with the kind before its name and the part behind it. */
    static void write(LoggedThread me, byte[] operation, byte[] kind, Object object, int site) {
        Line line = me.line.begin().put(operation);
        if (kind != null) line.put(kind);
        end(putObject(line, object), site);
        Log.write(line);
    }
    static void write(LoggedThread me, byte[] operation, Object object, int site) { write(me, operation, null, object, site); }

    // What is kept of a lock is what stands in the log, even if an error such as a full stack comes between: that needs no call.

    /** Acquires the lock so often. */
    static void acquire(LoggedThread me, Object lock, int times, int site) {
        int place = me.held.place(Numbers.of(lock));
        for (int left = times; left > 0; left--)
            try {
                me.line.isWritten = false;
                write(me, ACQUIRE, lock, site);
            } finally {
                if (me.line.isWritten) me.held.counts[place]++;
            }
    }

    /** Releases the lock so often, or as often as it is held, which is returned. A log that has ended takes none of these lines. */
    static int release(LoggedThread me, Object lock, int times, int site) {
        int place = me.held.place(Numbers.of(lock));
        int count = Math.min(times, me.held.counts[place]);
        for (int left = count; left > 0; left--) {
            try {
                me.line.isWritten = false;
                write(me, RELEASE, lock, site);
            } finally {
                if (me.line.isWritten) me.held.counts[place]--;
            }
            if (!me.line.isWritten) break;
        }
        return count;
    }
}
