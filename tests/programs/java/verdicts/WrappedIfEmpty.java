import java.util.*;
import java.util.concurrent.*;
// V: two methods put into a queue if a wrapper of it says that it is empty, and both ask before one puts
public class WrappedIfEmpty {
    static final Queue<String> all = new LinkedBlockingQueue<>();
    static final Collection<String> seen = Collections.unmodifiableCollection(all);
    static void put(String mine, String other) {
        if (!seen.isEmpty()) return;
        Turns.say(mine);
        Turns.await(other);
        all.add(mine);
    }
    public static void main(String[] x) {
        Turns.run(() -> put("a", "b"), () -> put("b", "a"));
    }
}
