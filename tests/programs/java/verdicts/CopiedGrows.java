import java.util.concurrent.*;
// V: contains, then addIfAbsent, then get(0) differs: a CopyOnWriteArrayList is read before and behind another's addIfAbsent
public class CopiedGrows {
    static final CopyOnWriteArrayList<String> q = new CopyOnWriteArrayList<>();
    static void two(String m, String o) {
        int n = q.size();
        Turns.say("1");
        Turns.await("2");
        if (q.size() != n) System.out.println("changed");
    }
    static void add() {
        Turns.await("1");
        q.addIfAbsent("x");
        Turns.say("2");
    }
    public static void main(String[] a) {
        Turns.run(() -> two("a", "b"), CopiedGrows::add);
    }
}
