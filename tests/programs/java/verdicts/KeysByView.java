import java.util.*;
// V: a method looks twice at a map, and another thread removes a key by the map's view of its keys in between
public class KeysByView {
    static final Map<String, Integer> all = new HashMap<>(Map.of("a", 1));
    static boolean twice() {
        boolean one = all.containsKey("a");
        Turns.say("one");
        Turns.await("put");
        return one == all.containsKey("a");
    }
    static void put() {
        all.keySet().remove("a");
    }
    public static void main(String[] x) {
        Turns.run(KeysByView::twice, () -> {
            Turns.await("one");
            put();
            Turns.say("put");
        });
    }
}
