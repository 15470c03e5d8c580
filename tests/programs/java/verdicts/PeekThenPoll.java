import java.util.*;
import java.util.concurrent.*;
// V: peek, then poll takes another's
public class PeekThenPoll {
    static final Queue<Object> q = new ConcurrentLinkedQueue<>(List.of("a", "b"));
    static void two() {
        Object n = q.peek();
        Turns.say("1");
        Turns.await("2");
        if (q.poll() != n) System.out.println("changed");
    }
    static void rem() {
        Turns.await("1");
        q.poll();
        Turns.say("2");
    }
    public static void main(String[] a) {
        Turns.run(() -> two(), PeekThenPoll::rem);
    }
}
