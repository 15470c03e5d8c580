import java.util.*;
import java.util.concurrent.*;
// V: both poll nothing, and each puts one
public class IfNoneOffer {
    static final BlockingQueue<Object> q = new LinkedBlockingQueue<>();
    static void one(String m, String o) {
        if (q.poll() == null) {
            Turns.say(m);
            Turns.await(o);
            q.offer(new Object());
        }
    }
    public static void main(String[] a) {
        Turns.run(() -> one("a", "b"), () -> one("b", "a"));
        System.out.println(q.size());
    }
}
