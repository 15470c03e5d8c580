package aerodrome.log;

import java.util.Arrays;

/** The locks that a thread holds by the log, each with how often. A lock is known by its number. */
public final class HeldLocks {
    private long[] locks = new long[8];
    /** How often the lock of each place is held. */
    public int[] counts = new int[8];
    private int size;

    /** None is held any more. */
    void clear() {
        Arrays.fill(counts, 0);
        size = 0;
    }

    /** How often the lock is held. */
    public int count(long lock) {
        for (int one = size - 1; one >= 0; one--) if (locks[one] == lock) return counts[one];
        return 0;
    }

    /** The lock's place, which it has until another's is asked for, or longer while it is held. */
    public int place(long lock) {
        int free = size;
        for (int one = size - 1; one >= 0; one--) {
            if (locks[one] == lock) return one;
            if (counts[one] == 0) free = one;
        }
        if (free == locks.length) {
            counts = Arrays.copyOf(counts, 2 * free);
            locks = Arrays.copyOf(locks, 2 * free);
        }
        locks[free] = lock;
        size = Math.max(size, free + 1);
        return free;
    }
}
