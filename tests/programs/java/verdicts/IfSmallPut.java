import java.util.*;
import java.util.concurrent.*;
// V: size, then put, on a map by several threads
public class IfSmallPut {
    static final ConcurrentHashMap<String, Integer> q = new ConcurrentHashMap<>();
    static void one(String m, String o) {
        if (q.size() < 1) {
            Turns.say(m);
            Turns.await(o);
            q.put(m, 1);
        }
    }
    public static void main(String[] a) {
        Turns.run(() -> one("a", "b"), () -> one("b", "a"));
        System.out.println(q.size());
    }
}
