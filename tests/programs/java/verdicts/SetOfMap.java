import java.util.*;
import java.util.concurrent.*;
// S: a method adds two values to a set made of a concurrent map, and another thread adds a third in between
public class SetOfMap {
    static final Set<String> all = Collections.newSetFromMap(new ConcurrentHashMap<>());
    static void two() {
        all.add("a");
        Turns.say("one");
        Turns.await("put");
        all.add("b");
    }
    static void put() {
        all.add("c");
    }
    public static void main(String[] x) {
        Turns.run(SetOfMap::two, () -> {
            Turns.await("one");
            put();
            Turns.say("put");
        });
    }
}
