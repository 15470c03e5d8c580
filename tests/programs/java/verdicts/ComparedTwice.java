import java.util.*;
// V: a method compares two lists twice, and another thread adds to the first in between
public class ComparedTwice {
    static final List<String> all = new ArrayList<>(), none = new ArrayList<>();
    static boolean twice() {
        boolean one = all.equals(none);
        Turns.say("one");
        Turns.await("added");
        return one == all.equals(none);
    }
    static void add() {
        all.add("a");
    }
    public static void main(String[] x) {
        Turns.run(ComparedTwice::twice, () -> {
            Turns.await("one");
            add();
            Turns.say("added");
        });
    }
}
