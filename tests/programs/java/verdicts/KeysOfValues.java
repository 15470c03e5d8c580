import java.util.*;
import java.util.concurrent.*;
// S: two threads put under two different keys, which are UUIDs
public class KeysOfValues {
    final ConcurrentHashMap<UUID, Integer> m = new ConcurrentHashMap<>();
    void two(UUID k, String me, String other) {
        m.put(k, 1);
        Turns.say(me);
        Turns.await(other);
        m.put(k, 2);
    }
    public static void main(String[] a) {
        KeysOfValues o = new KeysOfValues();
        Turns.run(() -> o.two(new UUID(1, 1), "a", "b"), () -> o.two(new UUID(2, 2), "b", "a"));
        System.out.println(o.m.size());
    }
}
