import java.util.*;
// V: a method looks twice for the eldest key of a cache in the order of accesses, and another thread's get moves that key in between
public class EldestOfCache {
    static final Map<String, Integer> cache = new LinkedHashMap<>(16, 0.75f, true);
    static String eldest() { return cache.keySet().iterator().next(); }
    static boolean twice() {
        String one = eldest();
        Turns.say("one");
        Turns.await("got");
        return one.equals(eldest());
    }
    static int get() { return cache.get("a"); }
    public static void main(String[] x) {
        cache.put("a", 1);
        cache.put("b", 2);
        Turns.run(EldestOfCache::twice, () -> {
            Turns.await("one");
            get();
            Turns.say("got");
        });
    }
}
