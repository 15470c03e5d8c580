package aerodrome.hooks;

import aerodrome.log.Line;
import aerodrome.log.Log;
import aerodrome.log.LoggedThread;
import aerodrome.names.ClassNames;
import aerodrome.names.Numbers;
import aerodrome.names.Text;

/**
 * The meetings at a barrier. Who arrives writes `meeting3.allN`, where N goes by the thread. Who leaves reads those of all threads that
 * have arrived for this meeting, and for no later one. The barrier has a generation for each meeting, and reads it under its own lock
 * once a thread arrives: so nobody has to guess for which meeting that is.
 */
public final class Meetings {
    private static final byte[] MEETING = Text.bytes(".meeting"), ALL = Text.bytes(".all");

    /** How many meetings of a barrier are known. */
    private static final class Count {
        private long meetings;
    }

    private final long number;
    /** The threads that have arrived, as bits. */
    private long arrived;

    private Meetings(long number) { this.number = number; }

    private static Meetings of(Object barrier, Object generation) {
        Numbers.Entry entry = Numbers.entry(generation);
        synchronized (entry) {
            if (!(entry.tied instanceof Meetings)) entry.tied = new Meetings(next(barrier));
            return (Meetings) entry.tied;
        }
    }
    private static long next(Object barrier) {
        Numbers.Entry entry = Numbers.entry(barrier);
        synchronized (entry) {
            if (!(entry.tied instanceof Count)) entry.tied = new Count();
            return ++((Count) entry.tied).meetings;
        }
    }

    /** The barrier reads its generation: first, if a call is about to arrive there. */
    public static void arrives(Object barrier, Object generation) {
        LoggedThread me = LoggedThread.logging();
        if (me == null || me.arriving == null) return;
        Call call = (Call) me.arriving;
        me.arriving = null;
        call.arrives(barrier, of(barrier, generation));
    }

    synchronized void arrive(LoggedThread me, Object barrier, int site) {
        arrived |= me.bit();
        write(me, Events.WRITE, barrier, me.group(), site);
    }
    synchronized void leave(LoggedThread me, Object barrier, int site) {
        for (long left = arrived; left != 0; left &= left - 1)
            write(me, Events.READ, barrier, Long.numberOfTrailingZeros(left), site);
    }

    private void write(LoggedThread me, byte[] operation, Object barrier, long thread, int site) {
        Line line = me.line.begin().put(operation).put(ClassNames.of(barrier.getClass())).put('@').put(Numbers.of(barrier));
        Events.end(line.put(MEETING).put(number).put(ALL).put(thread), site);
        Log.write(line);
    }
}
