package aerodrome.names;

/**
 * Each object that is logged has a number, from 1, that no other object ever has.
 *
 * An object of an instrumented class holds it in a field that was added to its class (Numbered). Arrays, and objects of other
 * classes, stand in a table that holds them weakly. A value above 0 is the number; 0 says that no event has named the object
 * yet; with local=skip a value below 0 says that only thread -value has touched it.
 */
public final class Numbers {
    /** What is known of an object that doesn't hold its number. */
    public static final class Entry extends WeakTable.Reference {
        volatile long number;
        /** What is known of a thread, a queue, a map or a semaphore; the field of an updater or a handle; what tells a class from others. */
        public volatile Object tied;
        /** How often it was given to a pool, as a task. */
        private int given;

        Entry(Object object, int hash, WeakTable of) { super(object, hash, of); }
    }

    private static final int TABLE_BITS = 6;
    private static final WeakTable[] TABLES = new WeakTable[1 << TABLE_BITS];
    static {
        for (int one = 0; one < TABLES.length; one++) TABLES[one] = new WeakTable(TABLE_BITS);
    }
    private static final Object LOCK = new Object();
    private static long last;

    private Numbers() { }

    public static Entry entry(Object object) {
        int hash = System.identityHashCode(object);
        hash ^= hash >>> 15;
        WeakTable table = TABLES[hash & TABLES.length - 1];
        Entry found = table.find(object, hash);
        return found != null ? found : table.findOrAdd(object, hash);
    }

    public static Object tied(Object object) { return entry(object).tied; }
    public static void tie(Object object, Object to) { entry(object).tied = to; }

    /** Counts that the task is given to a pool, and returns how often it was so by now. */
    public static int given(Object task) {
        Entry entry = entry(task);
        synchronized (entry) {
            return ++entry.given;
        }
    }
    public static int timesGiven(Object task) {
        Entry entry = entry(task);
        synchronized (entry) {
            return entry.given;
        }
    }

    /** The object's number. */
    public static long of(Object object) {
        if (!(object instanceof Numbered)) return of(entry(object));
        Numbered holder = (Numbered) object;
        long number = holder.aero$number();
        if (number > 0) return number;
        synchronized (LOCK) {
            number = holder.aero$number();
            if (number <= 0) holder.aero$number(number = ++last);
        }
        return number;
    }

    private static long of(Entry entry) {
        long number = entry.number;
        if (number > 0) return number;
        synchronized (LOCK) {
            number = entry.number;
            if (number <= 0) entry.number = number = ++last;
        }
        return number;
    }

    /** The object's number, or 0 where no other thread than the given one has touched it yet. */
    public static long ofShared(Object object, int thread) {
        Numbered holder = object instanceof Numbered ? (Numbered) object : null;
        Entry entry = holder == null ? entry(object) : null;
        long number = holder != null ? holder.aero$number() : entry.number;
        if (number > 0) return number;
        if (number == -thread) return 0;
        if (number != 0) return holder != null ? of(holder) : of(entry);
        if (holder != null) holder.aero$number(-thread);
        else entry.number = -thread;
        return 0;
    }

    /** The number that an object holds, if it isn't one that the object, as a clone, has of another. */
    public static long own(long number, Object object, Object owner) { return object == owner ? number : 0; }

    /** A clone has its original's fields, and so the number too. */
    public static void cloned(Object made) {
        if (made instanceof Numbered) ((Numbered) made).aero$number(0);
    }
}
