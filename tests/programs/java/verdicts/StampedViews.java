import java.util.concurrent.locks.*;
// S: two readers by asReadLock overlap; nobody writes
public class StampedViews {
    final Lock r = new StampedLock().asReadLock();
    int x;
    int read(String me, String other) {
        r.lock();
        try {
            Turns.say(me);
            Turns.await(other);
            return x;
        } finally {
            r.unlock();
        }
    }
    public static void main(String[] a) {
        StampedViews o = new StampedViews();
        Turns.run(() -> o.read("a", "b"), () -> o.read("b", "a"));
        System.out.println("ok");
    }
}
