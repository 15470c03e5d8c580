import java.util.*;
import java.util.concurrent.*;
// S: two threads add different strings to ConcurrentHashMap.newKeySet()
public class KeySets {
    final Set<String> m = ConcurrentHashMap.newKeySet();
    void two(String me, String other) {
        m.add(me + 1);
        Turns.say(me);
        Turns.await(other);
        m.add(me + 2);
    }
    public static void main(String[] a) {
        KeySets o = new KeySets();
        Turns.run(() -> o.two("a", "b"), () -> o.two("b", "a"));
        System.out.println(o.m.size());
    }
}
