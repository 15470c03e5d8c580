import java.util.*;
// V: check, then act on a synchronized list
public class IfLacksAdd {
    static final List<String> q = Collections.synchronizedList(new ArrayList<>());
    static void one(String m, String o) {
        if (!q.contains("x")) {
            Turns.say(m);
            Turns.await(o);
            q.add("x");
        }
    }
    public static void main(String[] a) {
        Turns.run(() -> one("a", "b"), () -> one("b", "a"));
        System.out.println(q.size());
    }
}
