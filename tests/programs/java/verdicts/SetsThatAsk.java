import java.util.Set;
import java.util.concurrent.ConcurrentHashMap;

// S: add of a set calls equals of a key; before it, the agent calls that too, which isn't a read by the program
public class SetsThatAsk {
    static int seen;

    static class Key {
        @Override public int hashCode() { return 1; }
        @Override public boolean equals(Object other) {
            int before = seen;
            meanwhile();
            return before == 0;
        }
    }
    /** Has the other thread write, and waits for that: by what nobody logs. */
    static void meanwhile() {
        System.setProperty("aerodrome.tests.asked", "true");
        while (!Boolean.getBoolean("aerodrome.tests.written")) Thread.yield();
    }
    static void adds(Set<Key> set) { set.add(new Key()); }

    public static void main(String[] words) throws Exception {
        Set<Key> set = ConcurrentHashMap.newKeySet();
        set.add(new Key());
        Thread other = new Thread(() -> {
            while (!Boolean.getBoolean("aerodrome.tests.asked")) Thread.yield();
            seen = 1;
            System.setProperty("aerodrome.tests.written", "true");
        });
        other.start();
        adds(set);
        other.join();
    }
}
