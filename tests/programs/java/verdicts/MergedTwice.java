import java.util.concurrent.ConcurrentHashMap;

// V: two merges of one key in a block, and another thread's between them
public class MergedTwice {
    static final ConcurrentHashMap<Long, Integer> counts = new ConcurrentHashMap<>();
    static void add(long key) { counts.merge(key, 1, Integer::sum); }
    static void twice(long key) {
        add(key);
        Turns.say("once");
        Turns.await("other");
        add(key);
    }
    public static void main(String[] words) {
        Turns.run(() -> twice(1L << 40), () -> {
            Turns.await("once");
            add(1L << 40);
            Turns.say("other");
        });
    }
}
