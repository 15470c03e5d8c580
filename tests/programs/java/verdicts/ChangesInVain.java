import java.util.Arrays;
import java.util.Collections;
import java.util.List;
import java.util.Map;
import java.util.Set;
import java.util.concurrent.ConcurrentHashMap;
import java.util.concurrent.ConcurrentSkipListMap;
import java.util.concurrent.ConcurrentSkipListSet;
import java.util.concurrent.CopyOnWriteArrayList;
import java.util.concurrent.CopyOnWriteArraySet;

// S: calls that could change a map, a set or a list, but find nothing to change, stand between two looks of another thread
public class ChangesInVain {
    interface Call {
        Object make();
    }

    static Object lookTwice(Call look) {
        Object before = look.make();
        Meet.both();
        Meet.both();
        return before.equals(look.make());
    }
    static void inVain(Call change) { change.make(); }

    static void run(Call look, Call change) throws Exception {
        Meet.run(2, me -> {
            if (me == 0) lookTwice(look);
            else {
                Meet.both();
                inVain(change);
                Meet.both();
            }
        });
    }

    static void run(Map<String, String> map) throws Exception {
        map.put("a", "b");
        run(() -> map.containsKey("k"), () -> map.remove("k"));
        run(() -> map.containsKey("k"), () -> map.replace("k", "v"));
        run(() -> map.containsKey("k"), () -> map.computeIfPresent("k", (key, value) -> "v"));
        run(() -> map.get("a"), () -> map.remove("a", "c"));
        run(() -> map.get("a"), () -> map.replace("a", "c", "d"));
        run(() -> map.size(), () -> map.remove("a", "c"));
        run(() -> map.size(), () -> map.keySet().remove("k"));
        run(() -> map.get("a"), () -> map.values().remove("k"));
    }
    static void run(Set<String> set) throws Exception {
        set.add("a");
        run(() -> set.contains("k"), () -> set.remove("k"));
        run(() -> set.contains("a"), () -> set.add("a"));
    }

    public static void main(String[] words) throws Exception {
        run(new ConcurrentHashMap<>());
        run(new ConcurrentSkipListMap<>());
        run(ConcurrentHashMap.newKeySet());
        run(new ConcurrentSkipListSet<>());
        run(new CopyOnWriteArraySet<>());
        ConcurrentSkipListSet<String> none = new ConcurrentSkipListSet<>();
        run(() -> none.contains("k"), () -> none.pollFirst());
        run(() -> none.contains("k"), () -> none.descendingSet().pollLast());
        ConcurrentSkipListMap<String, String> empty = new ConcurrentSkipListMap<>();
        run(() -> empty.containsKey("k"), () -> empty.pollFirstEntry());
        CopyOnWriteArrayList<String> list = new CopyOnWriteArrayList<>(Arrays.asList("a"));
        run(() -> list.contains("a"), () -> list.addIfAbsent("a"));
        run(() -> list.contains("a"), () -> list.remove("k"));
        List<String> unmodifiable = Collections.unmodifiableList(list);
        run(() -> list.contains("a"), () -> {
            try {
                return unmodifiable.add("k");
            } catch (UnsupportedOperationException wanted) {
                return wanted;
            }
        });
        Object same = new Object();
        ConcurrentHashMap<String, Object> map = new ConcurrentHashMap<>(Map.of("a", same));
        run(() -> map.get("a"), () -> map.compute("a", (key, value) -> value));
        run(() -> map.get("a"), () -> map.merge("a", "b", (one, two) -> one));
    }
}
