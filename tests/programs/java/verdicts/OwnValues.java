import java.util.*;
import java.util.concurrent.*;
// S: a concurrent map of the program's whose class is called Values, as the JDK's views are: a method puts two keys, another thread a third
public class OwnValues {
    static class Values extends ConcurrentHashMap<String, String> { }
    static final Map<String, String> all = new Values();
    static void two() {
        all.put("a", "x");
        Turns.say("one");
        Turns.await("put");
        all.put("b", "x");
    }
    static void put() {
        all.put("c", "x");
    }
    public static void main(String[] x) {
        Turns.run(OwnValues::two, () -> {
            Turns.await("one");
            put();
            Turns.say("put");
        });
    }
}
