import java.util.concurrent.ConcurrentSkipListMap;

// V: the first key of a map is looked up and then removed, and another thread has put the key again in between
public class FirstThenRemove {
    static final ConcurrentSkipListMap<Integer, String> JOBS = new ConcurrentSkipListMap<>();

    static String next() {
        Integer first = JOBS.firstKey();
        String job = JOBS.get(first);
        Turns.say("found");
        Turns.await("replaced");
        JOBS.remove(first);
        return job;
    }
    static void replace() { JOBS.put(1, "b"); }
    public static void main(String[] words) {
        JOBS.put(1, "a");
        Turns.run(FirstThenRemove::next, () -> {
            Turns.await("found");
            replace();
            Turns.say("replaced");
        });
    }
}
