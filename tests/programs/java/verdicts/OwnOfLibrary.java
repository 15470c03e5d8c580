import java.util.*;
// V: a map whose class extends one of a library that isn't logged: a method looks twice, and another thread puts in between
public class OwnOfLibrary extends MeetMap {
    static final Map<String, String> all = new OwnOfLibrary();
    @Override public String get(Object key) { return super.get(key); }
    static boolean twice() {
        Object one = all.get("a");
        Turns.say("one");
        Turns.await("put");
        return one == all.get("a");
    }
    static void put() {
        all.put("a", "b");
    }
    public static void main(String[] x) {
        Turns.run(OwnOfLibrary::twice, () -> {
            Turns.await("one");
            put();
            Turns.say("put");
        });
    }
}

// Never logged, as its name begins so (skip=Meet)
class MeetMap extends HashMap<String, String> { }
