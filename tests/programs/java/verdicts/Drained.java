import java.util.*;
import java.util.concurrent.*;
// V: drainTo between two looks
public class Drained {
    static final BlockingQueue<String> q = new LinkedBlockingQueue<>(List.of("a", "b"));
    static void two() {
        String n = q.peek();
        Turns.say("1");
        Turns.await("2");
        String k = q.peek();
        if (n != k) System.out.println("changed");
    }
    static void rem() {
        Turns.await("1");
        q.drainTo(new ArrayList<>());
        Turns.say("2");
    }
    public static void main(String[] a) {
        Turns.run(() -> two(), Drained::rem);
    }
}
