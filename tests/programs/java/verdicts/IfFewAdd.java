import java.util.concurrent.*;
// V: remainingCapacity / size, then put, on a bounded queue
public class IfFewAdd {
    static final BlockingQueue<Object> q = new LinkedBlockingQueue<>();
    static void one(String m, String o) {
        if (q.size() < 1) {
            Turns.say(m);
            Turns.await(o);
            q.add(new Object());
        }
    }
    public static void main(String[] a) {
        Turns.run(() -> one("a", "b"), () -> one("b", "a"));
        System.out.println(q.size());
    }
}
