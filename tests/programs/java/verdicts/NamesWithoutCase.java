import java.util.concurrent.ConcurrentSkipListMap;

// V: a map's comparator takes two names for the same key, which another thread writes between a look and a write
public class NamesWithoutCase {
    private final ConcurrentSkipListMap<String, Integer> map = new ConcurrentSkipListMap<>(String.CASE_INSENSITIVE_ORDER);

    void add() {
        int before = map.getOrDefault("Name", 0);
        Meet.both();
        Meet.both();
        map.put("Name", before + 1);
    }
    void set() { map.put("NAME", 5); }

    public static void main(String[] words) throws Exception {
        NamesWithoutCase it = new NamesWithoutCase();
        Meet.run(2, me -> {
            if (me == 0) it.add();
            else {
                Meet.both();
                it.set();
                Meet.both();
            }
        });
    }
}
