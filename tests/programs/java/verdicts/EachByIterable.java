import java.util.*;
// V: a method goes twice through a list that it has as an Iterable, and another thread adds to the list in between
public class EachByIterable {
    static final List<String> all = new ArrayList<>();
    static int count(Iterable<String> each) {
        int count = 0;
        for (String one : each) count++;
        return count;
    }
    static boolean twice() {
        int one = count(all);
        Turns.say("one");
        Turns.await("added");
        return one == count(all);
    }
    static void add() {
        all.add("a");
    }
    public static void main(String[] x) {
        Turns.run(EachByIterable::twice, () -> {
            Turns.await("one");
            add();
            Turns.say("added");
        });
    }
}
