package aerodrome.hooks;

import aerodrome.log.Line;
import aerodrome.log.Log;
import aerodrome.log.LoggedThread;
import aerodrome.names.ClassNames;
import aerodrome.names.Numbers;
import aerodrome.names.Text;
import java.util.Collection;
import java.util.Collections;
import java.util.Comparator;
import java.util.Map;
import java.util.SortedMap;
import java.util.SortedSet;
import java.util.UUID;
import java.util.concurrent.ConcurrentMap;
import java.util.concurrent.ConcurrentSkipListSet;

/**
 * Maps and sets for several threads. Each call reads `clear`, which what changes the whole map writes. A write of a key is also an
 * addition to the map, and a look at the whole map is a look at that (Parts), even if the one's thread is started after the other.
 * So neither writes of two keys nor two looks at the whole map conflict.
 */
final class Maps {
    private static final byte[] HASHED = Text.bytes(".key"), SAME = Text.bytes(".key@");
    private static final byte[] CLEAR = Text.bytes(".clear");

    private Maps() { }

    /** Returns whether the map or set, which is no view, has a variable for each key. */
    static boolean hasKeys(Object map) { return map instanceof ConcurrentMap || map instanceof ConcurrentSkipListSet; }
    /** Returns the kind of a call by a view, which may be one of a map's values or entries: then the call may come upon any key. */
    static Kind kind(Kind ofKey, Object receiver) {
        boolean isOfWhole = ofKey == Kind.WHOLE_READ || ofKey == Kind.WHOLE_WRITE || ofKey == Kind.WHOLE_TAKE;
        if (isOfWhole || Views.isOfKeys(receiver)) return ofKey;
        return ofKey == Kind.KEY_READ ? Kind.WHOLE_READ : ofKey == Kind.KEY_IF_PRESENT ? Kind.WHOLE_TAKE : Kind.WHOLE_WRITE;
    }
    /** @param expected the value that the key must have; null: any */
    static boolean hasKey(Object map, Object key, Object expected) {
        if (!(map instanceof Map)) return ((Collection<?>) map).contains(key);
        Object value = ((Map<?, ?>) map).get(key);
        return value != null && (expected == null || expected.equals(value));
    }
    /** Returns whether a set, a map or a view of one has the argument; without one, whether it has anything. */
    static boolean hasSome(Object receiver, Object argument) {
        if (argument != null && receiver instanceof Collection) return ((Collection<?>) receiver).contains(argument);
        return receiver instanceof Map ? !((Map<?, ?>) receiver).isEmpty() : !((Collection<?>) receiver).isEmpty();
    }

    /** Writes the lines of a call, without one of another thread between. */
    static void write(LoggedThread me, Kind kind, Object map, Object key, int site) {
        boolean isOfKey = kind == Kind.KEY_READ || kind == Kind.KEY_WRITE;
        Keys telling = isOfKey ? telling(me, map, key) : Keys.NOT;
        long number = isOfKey ? number(me, telling, key) : -1, of = Numbers.of(map);
        Parts parts = Parts.of(map);
        try {
            Log.lock();
            close(begin(me, kind == Kind.WHOLE_WRITE ? Events.WRITE : Events.READ, map, of, CLEAR), -1, site);
            if (kind == Kind.WHOLE_READ) parts.look(me, map, site);
            if (kind == Kind.KEY_WRITE) parts.readLooks(me, map, site);
            if (!isOfKey) return;
            byte[] part = telling == Keys.BY_IDENTITY ? SAME : HASHED;
            Line line = begin(me, kind == Kind.KEY_WRITE ? Events.WRITE : Events.READ, map, of, part);
            if (number >= 0) line.put(number);
            if (telling == Keys.BY_HASH_AND_CLASS) line.put('.').put(ClassNames.of(key.getClass()));
            close(line, -1, site);
            if (kind == Kind.KEY_WRITE) parts.add(me, map, site);
        } finally {
            Log.unlock();
        }
    }
    /** A map in the order of a comparator takes keys for the same that aren't equal. */
    private static Keys telling(LoggedThread me, Object map, Object key) {
        Keys telling = Keys.of(key);
        boolean isSorted = map instanceof SortedMap || map instanceof SortedSet;
        return !isSorted || telling == Keys.NOT || Keys.isNatural(key) && isNatural(me, map) ? telling : Keys.NOT;
    }
    private static boolean isNatural(LoggedThread me, Object map) {
        me.isQuiet = true;
        try {
            Object by = map instanceof SortedMap ? ((SortedMap<?, ?>) map).comparator() : ((SortedSet<?>) map).comparator();
            return by == null || by == Comparator.naturalOrder() || by == Collections.reverseOrder();
        } finally {
            me.isQuiet = false;
        }
    }
    private static long number(LoggedThread me, Keys telling, Object key) {
        boolean isHashed = telling == Keys.BY_HASH || telling == Keys.BY_HASH_AND_CLASS;
        return isHashed ? hash(me, key) : telling == Keys.BY_IDENTITY ? Numbers.of(key) : -1;
    }
    /** Also that of a record, whose method isn't the program's though its class is. Some have more to tell than their hash. */
    private static long hash(LoggedThread me, Object key) {
        if (key instanceof Long) return (Long) key & Long.MAX_VALUE;
        if (key instanceof UUID) {
            UUID id = (UUID) key;
            return 31 * id.getMostSignificantBits() + id.getLeastSignificantBits() & Long.MAX_VALUE;
        }
        me.isQuiet = true;
        try {
            return key.hashCode() & 0xffffffffL;
        } finally {
            me.isQuiet = false;
        }
    }

    // ---- a line on a part of the map, which has a number behind it unless that is below 0

    private static Line begin(LoggedThread me, byte[] operation, Object map, long of, byte[] part) {
        return me.line.begin().put(operation).put(ClassNames.of(map.getClass())).put('@').put(of).put(part);
    }
    private static void close(Line line, long number, int site) {
        if (number >= 0) line.put(number);
        Events.end(line, site);
        Log.append(line);
    }
}
