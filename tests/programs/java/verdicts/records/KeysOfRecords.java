import java.util.concurrent.*;
// S: as before; keys are records
public class KeysOfRecords {
    record K(int a, String b) { }
    final ConcurrentMap<K, Integer> m = new ConcurrentHashMap<>();
    void two(K k, String me, String other) {
        m.put(k, 1);
        Turns.say(me);
        Turns.await(other);
        m.put(k, 2);
    }
    public static void main(String[] a) {
        KeysOfRecords o = new KeysOfRecords();
        Turns.run(() -> o.two(new K(1, "x"), "a", "b"), () -> o.two(new K(2, "y"), "b", "a"));
        System.out.println(o.m.size());
    }
}
