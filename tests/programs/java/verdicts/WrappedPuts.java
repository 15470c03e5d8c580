import java.util.*;
import java.util.concurrent.*;
// S: a method puts two objects into a queue by a wrapper, and another thread puts a third in between; puts don't conflict
public class WrappedPuts {
    static final Collection<String> all = Collections.synchronizedCollection(new ConcurrentLinkedQueue<>());
    static void two() {
        all.add("a");
        Turns.say("one");
        Turns.await("put");
        all.add("b");
    }
    static void put() {
        all.add("c");
    }
    public static void main(String[] x) {
        Turns.run(WrappedPuts::two, () -> {
            Turns.await("one");
            put();
            Turns.say("put");
        });
    }
}
