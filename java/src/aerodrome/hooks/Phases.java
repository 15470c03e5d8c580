package aerodrome.hooks;

import aerodrome.log.Line;
import aerodrome.log.Log;
import aerodrome.log.LoggedThread;
import aerodrome.names.ClassNames;
import aerodrome.names.Numbers;
import aerodrome.names.Text;
import java.util.LinkedHashMap;
import java.util.Map;
import java.util.concurrent.Phaser;

/**
 * The phases of a phaser. Who arrives writes `phase3.allN` before the call, where N goes by the thread. Who waits for the end of that
 * phase reads those of all threads that have arrived in it, and of no later phase. Phasers that have one root have its phases.
 */
final class Phases {
    private static final byte[] PHASE = Text.bytes(".phase"), ALL = Text.bytes(".all");
    /** The phases that are known at once: who waits for an older one reads nothing. */
    private static final int MOST = 64;

    /** By phase, the threads that have arrived, as bits. */
    private final Map<Integer, Long> arrived = new LinkedHashMap<Integer, Long>() {
        @Override protected boolean removeEldestEntry(Map.Entry<Integer, Long> eldest) { return size() > MOST; }
    };

    private Phases() { }

    private static Phases of(Object root) {
        Numbers.Entry entry = Numbers.entry(root);
        synchronized (entry) {
            if (!(entry.tied instanceof Phases)) entry.tied = new Phases();
            return (Phases) entry.tied;
        }
    }

    /** Returns the phase; below 0 where the phaser has ended. */
    static int arrive(LoggedThread me, Phaser phaser, int site) {
        Object root = phaser.getRoot();
        Phases phases = of(root);
        int phase = phaser.getPhase();
        if (phase < 0) return phase;
        write(me, Events.WRITE, root, phase, me.group(), site);
        synchronized (phases) {
            phases.arrived.merge(phase, me.bit(), (before, mine) -> before | mine);
        }
        return phase;
    }

    static void passed(LoggedThread me, Phaser phaser, long phase, int site) {
        Object root = phaser.getRoot();
        Phases phases = of(root);
        long threads;
        synchronized (phases) {
            threads = phase < 0 ? 0 : phases.arrived.getOrDefault((int) phase, 0L);
        }
        for (long left = threads; left != 0; left &= left - 1)
            write(me, Events.READ, root, phase, Long.numberOfTrailingZeros(left), site);
    }

    private static void write(LoggedThread me, byte[] operation, Object root, long phase, long thread, int site) {
        Line line = me.line.begin().put(operation).put(ClassNames.of(root.getClass())).put('@').put(Numbers.of(root));
        Events.end(line.put(PHASE).put(phase).put(ALL).put(thread), site);
        Log.write(line);
    }
}
