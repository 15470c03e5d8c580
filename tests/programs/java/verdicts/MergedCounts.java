import java.util.concurrent.ConcurrentHashMap;

// S: two threads count words by merge and compute: each call is one step for its key
public class MergedCounts {
    static final ConcurrentHashMap<String, Integer> counts = new ConcurrentHashMap<>();
    static void count(String word) { counts.merge(word, 1, Integer::sum); }
    static void addTo(String word) { counts.compute(word, (key, before) -> before == null ? 1 : before + 1); }
    static void drop(String word) { counts.computeIfPresent(word, (key, before) -> before > 1 ? before - 1 : null); }
    public static void main(String[] words) throws Exception {
        Meet.run(2, me -> {
            for (int one = 0; one < 50; one++) {
                count("a" + one % 3);
                addTo("a" + one % 3);
                drop("a" + one % 3);
            }
        });
        System.out.println("ok");
    }
}
