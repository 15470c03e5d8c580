import java.util.*;
// V: a method looks twice at a sorted set, and another thread removes from it by a subset in between
public class SubsetRemoves {
    static final SortedSet<String> all = new TreeSet<>(List.of("a", "b"));
    static boolean twice() {
        boolean one = all.contains("a");
        Turns.say("one");
        Turns.await("removed");
        return one == all.contains("a");
    }
    static void remove() {
        all.headSet("b").remove("a");
    }
    public static void main(String[] x) {
        Turns.run(SubsetRemoves::twice, () -> {
            Turns.await("one");
            remove();
            Turns.say("removed");
        });
    }
}
