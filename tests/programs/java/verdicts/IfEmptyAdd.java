import java.util.*;
import java.util.concurrent.*;
// V: both see that the queue is empty, and each puts one
public class IfEmptyAdd {
    static final Queue<Object> q = new ConcurrentLinkedQueue<>();
    static void one(String m, String o) {
        if (q.isEmpty()) {
            Turns.say(m);
            Turns.await(o);
            q.add(new Object());
        }
    }
    public static void main(String[] a) {
        Turns.run(() -> one("a", "b"), () -> one("b", "a"));
        System.out.println(q.size());
    }
}
