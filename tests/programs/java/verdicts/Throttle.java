import java.util.concurrent.*;
// S: a semaphore of four permits as a throttle; the two threads overlap and share nothing else
public class Throttle {
    final Semaphore s = new Semaphore(4);
    void work(String me, String other) {
        s.acquireUninterruptibly();
        try {
            Turns.say(me);
            Turns.await(other);
        } finally {
            s.release();
        }
    }
    public static void main(String[] a) {
        Throttle o = new Throttle();
        Turns.run(() -> o.work("a", "b"), () -> o.work("b", "a"));
        System.out.println("ok");
    }
}
