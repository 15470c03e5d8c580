import java.util.*;
import java.util.concurrent.*;
// V: a method asks a sorted set for several threads twice, and another thread adds to it by its descending view in between
public class TurnedSetAdds {
    static final ConcurrentSkipListSet<String> all = new ConcurrentSkipListSet<>();
    static boolean twice() {
        boolean one = all.contains("a");
        Turns.say("one");
        Turns.await("added");
        return one == all.contains("a");
    }
    static void add() {
        all.descendingSet().add("a");
    }
    public static void main(String[] x) {
        Turns.run(TurnedSetAdds::twice, () -> {
            Turns.await("one");
            add();
            Turns.say("added");
        });
    }
}
