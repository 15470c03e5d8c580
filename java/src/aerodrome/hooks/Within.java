package aerodrome.hooks;

import java.util.Map;
import java.util.function.BiFunction;
import java.util.function.Function;

/**
 * In the place of calls of maps that change a key by what stands under it. ConcurrentHashMap makes such a change as one, while it
 * keeps other threads from the key: so there the event of the key is written within, by what these give the map for a function.
 */
public final class Within {
    private Within() { }

    /** What is given a value and gives the next: by the program's function; without one, the value if there was none. */
    private static final class Step implements BiFunction<Object, Object, Object> {
        private final Call call;
        private final BiFunction<Object, Object, Object> function;
        /** That of merge or putIfAbsent. */
        private final Object value;
        private Object before;

        Step(Call call, BiFunction<Object, Object, Object> function, Object value) {
            this.call = call;
            this.function = function;
            this.value = value;
        }

        @Override public Object apply(Object key, Object before) {
            this.before = before;
            Object after = before == null && value != null ? value
                    : function == null ? before
                    : value != null ? function.apply(before, value) : function.apply(key, before);
            call.within(after != before);
            return after;
        }
    }
    /** Gives the next value in the place of that which is expected, and otherwise the same value. */
    private static final class Exchange implements BiFunction<Object, Object, Object> {
        /** The value that must be under the key; null: any value. */
        private final Object expected;
        private final Object next;
        private boolean isDone;

        Exchange(Object expected, Object next) {
            this.expected = expected;
            this.next = next;
        }

        @Override public Object apply(Object key, Object before) {
            isDone = expected == null || expected == before || expected.equals(before);
            return isDone ? next : before;
        }
    }
    private static final class Maker implements Function<Object, Object> {
        private final Call call;
        private final Function<Object, Object> function;

        Maker(Call call, Function<Object, Object> function) {
            this.call = call;
            this.function = function;
        }

        @Override public Object apply(Object key) {
            Object made = function.apply(key);
            call.within(made != null);
            return made;
        }
    }

    private static boolean isWithin(Call call) { return call != null && call.isWithin(); }

    public static Object compute(Map<Object, Object> map, Object key, BiFunction<Object, Object, Object> by, Call call) {
        return map.compute(key, isWithin(call) && by != null ? new Step(call, by, null) : by);
    }
    public static Object computeIfPresent(Map<Object, Object> map, Object key, BiFunction<Object, Object, Object> by, Call call) {
        return map.computeIfPresent(key, isWithin(call) && by != null ? new Step(call, by, null) : by);
    }
    public static Object computeIfAbsent(Map<Object, Object> map, Object key, Function<Object, Object> by, Call call) {
        return map.computeIfAbsent(key, isWithin(call) && by != null ? new Maker(call, by) : by);
    }
    public static Object merge(Map<Object, Object> map, Object key, Object value, BiFunction<Object, Object, Object> by,
            Call call) {
        boolean isWithin = isWithin(call) && value != null && by != null;
        return isWithin ? map.compute(key, new Step(call, by, value)) : map.merge(key, value, by);
    }
    public static Object putIfAbsent(Map<Object, Object> map, Object key, Object value, Call call) {
        if (!isWithin(call) || value == null) return map.putIfAbsent(key, value);
        Step step = new Step(call, null, value);
        map.compute(key, step);
        return step.before;
    }

    public static Object remove(Map<Object, Object> map, Object key, Call call) {
        return isWithin(call) ? exchange(map, key, null, call) : map.remove(key);
    }
    public static Object replace(Map<Object, Object> map, Object key, Object value, Call call) {
        return isWithin(call) && value != null ? exchange(map, key, value, call) : map.replace(key, value);
    }
    private static Object exchange(Map<Object, Object> map, Object key, Object next, Call call) {
        Step step = new Step(call, new Exchange(null, next), null);
        map.computeIfPresent(key, step);
        return step.before;
    }
    public static boolean remove(Map<Object, Object> map, Object key, Object value, Call call) {
        if (!isWithin(call) || value == null) return map.remove(key, value);
        return isExchanged(map, key, new Exchange(value, null), call);
    }
    public static boolean replace(Map<Object, Object> map, Object key, Object value, Object next, Call call) {
        if (!isWithin(call) || value == null || next == null) return map.replace(key, value, next);
        return isExchanged(map, key, new Exchange(value, next), call);
    }
    private static boolean isExchanged(Map<Object, Object> map, Object key, Exchange exchange, Call call) {
        map.computeIfPresent(key, new Step(call, exchange, null));
        return exchange.isDone;
    }
}
