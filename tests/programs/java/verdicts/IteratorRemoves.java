import java.util.*;
// V: a list is read before and behind what another's iterator removes, and what a listIterator sets
public class IteratorRemoves {
    static final List<String> q = new ArrayList<>(List.of("a", "b"));
    static void two() {
        int n = q.size();
        Turns.say("1");
        Turns.await("2");
        if (q.size() != n) System.out.println("changed");
    }
    static void rem() {
        Turns.await("1");
        Iterator<String> i = q.iterator();
        i.next();
        i.remove();
        Turns.say("2");
    }
    public static void main(String[] a) {
        Turns.run(() -> two(), IteratorRemoves::rem);
    }
}
