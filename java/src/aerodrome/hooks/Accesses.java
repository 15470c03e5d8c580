package aerodrome.hooks;

import aerodrome.Options;
import aerodrome.log.Line;
import aerodrome.log.Log;
import aerodrome.log.LoggedThread;
import aerodrome.names.ClassNames;
import aerodrome.names.Numbers;
import aerodrome.names.Site;
import java.lang.reflect.Array;

/**
 * Accesses of fields and arrays. A hook writes the line and keeps the log's lock until `done`, which is called behind the access.
 * So an access that would throw mustn't come under the lock: the code before the hook has read the field once, and the hook looks
 * at the index.
 */
public final class Accesses {
    private Accesses() { }

    public static void field(Object object, int site) {
        LoggedThread me = LoggedThread.accessing();
        if (me == null) return;
        Site at = Site.get(site);
        if (!at.isLogged(false)) return;
        long number = number(me, object);
        if (number == 0) return;
        Log.hold(me.line.begin().put(at.text()).put(number).put(')').put(at.place));
    }

    public static void staticField(int site) {
        LoggedThread me = LoggedThread.accessing();
        if (me == null) return;
        Site at = Site.get(site);
        if (at.isLogged(true)) Log.hold(me.line.begin().put(at.text()).put(at.place));
    }

    public static void done() { Log.unlock(); }

    /** The object's number, or 0 where it isn't logged yet. */
    private static long number(LoggedThread me, Object object) {
        return Options.local ? Numbers.of(object) : Numbers.ofShared(object, me.number);
    }

    // ---- arrays

    public static void readElement(Object array, int index, int site) { element(Events.READ, array, index, site); }
    public static void writeElement(Object array, int index, int site) { element(Events.WRITE, array, index, site); }

    private static void element(byte[] operation, Object array, int index, int site) {
        if (array == null || index < 0 || index >= Array.getLength(array)) return;
        LoggedThread me = LoggedThread.accessing();
        if (me == null || !putElement(me, operation, array, index)) return;
        Log.hold(me.line.put(Site.get(site).place));
    }
    private static boolean putElement(LoggedThread me, byte[] operation, Object array, int index) {
        long number = number(me, array);
        if (number == 0) return false;
        me.line.begin().put(operation);
        putIndex(me.line.put(ClassNames.of(array.getClass())).put('@').put(number), index);
        me.line.put(')');
        return true;
    }
    static void putIndex(Line line, long index) {
        if (Options.arrays == Options.Grain.EACH && index >= 0) line.put('[').put(index).put(']');
    }

    /** In the place of an instruction that stores an object, since the array may refuse it. */
    public static void storeElement(Object[] array, int index, Object value, int site) {
        writeElement(array, index, site);
        try {
            array[index] = value;
        } finally {
            done();
        }
    }

    /** In the place of System.arraycopy. */
    public static void copy(Object from, int start, Object to, int at, int count, int site) {
        LoggedThread me = Options.arrays == Options.Grain.OFF ? null : LoggedThread.accessing();
        try {
            if (me != null && has(from, start, count) && has(to, at, count)) {
                int most = Options.arrays == Options.Grain.WHOLE ? Math.min(count, 1) : count;
                Log.lock();
                for (int one = 0; one < most; one++) append(me, Events.READ, from, start + one, site);
                for (int one = 0; one < most; one++) append(me, Events.WRITE, to, at + one, site);
            }
            System.arraycopy(from, start, to, at, count);
        } finally {
            done();
        }
    }
    /** In the place of an array's clone. */
    public static Object copy(Object array, int site) {
        Class<?> of = array.getClass().getComponentType();
        int count = Array.getLength(array);
        Object made = Array.newInstance(of, count);
        LoggedThread me = Options.arrays == Options.Grain.OFF ? null : LoggedThread.accessing();
        try {
            if (me != null) {
                Log.lock();
                for (int one = 0; one < (Options.arrays == Options.Grain.WHOLE ? Math.min(count, 1) : count); one++)
                    append(me, Events.READ, array, one, site);
            }
            System.arraycopy(array, 0, made, 0, count);
        } finally {
            done();
        }
        return made;
    }
    private static boolean has(Object array, int first, int count) {
        return array != null && array.getClass().isArray() && first >= 0 && count >= 0 && count <= Array.getLength(array) - first;
    }
    private static void append(LoggedThread me, byte[] operation, Object array, int index, int site) {
        if (putElement(me, operation, array, index)) Log.append(me.line.put(Site.get(site).place));
    }
}
