package aerodrome.hooks;

import aerodrome.Options;
import aerodrome.log.LoggedThread;

/**
 * The option `stir`: where a block has begun, and before a lock, a call that is logged, a volatile field or a method of the
 * program, a thread now and then lets others run, so that threads which do little overlap nevertheless. Where it does so follows
 * from the number and the thread's own. It neither sleeps nor parks, so it uses up neither an interrupt nor a permit of the
 * program's.
 */
public final class Stir {
    /** Of the first places of a thread it waits at one of 8, of the others at one of 256; at as many more it only yields. */
    private static final int FIRST = 2000, OFTEN = 8, SELDOM = 256;
    private static final long NANOSECONDS = 1 << 19, SEED = 1_000_003, STEP = 0x9e3779b97f4a7c15L;

    private Stir() { }

    public static void place() {
        if (Options.stir < 0) return;
        LoggedThread me = LoggedThread.logging();
        if (me == null) return;
        if (me.places++ == 0) me.random = Options.stir * SEED + me.number;
        long random = mixed(me.random += STEP);
        long what = Long.remainderUnsigned(random, me.places < FIRST ? OFTEN : SELDOM);
        if (what == 0) waits(random >>> 32 & NANOSECONDS - 1);
        if (what == 1) Thread.yield();
    }
    private static long mixed(long state) {
        long mixed = (state ^ state >>> 30) * 0xbf58476d1ce4e5b9L;
        mixed = (mixed ^ mixed >>> 27) * 0x94d049bb133111ebL;
        return mixed ^ mixed >>> 31;
    }
    private static void waits(long nanoseconds) {
        long first = System.nanoTime();
        while (System.nanoTime() - first < nanoseconds) Thread.yield();
    }
}
