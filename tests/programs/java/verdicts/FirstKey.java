import java.util.concurrent.ConcurrentSkipListMap;

// V: the first key of a sorted map is asked for twice, and another thread puts a smaller one in between
public class FirstKey {
    private final ConcurrentSkipListMap<Integer, String> map = new ConcurrentSkipListMap<>();

    int twice() {
        int first = map.firstKey();
        Meet.both();
        Meet.both();
        return map.firstKey() - first;
    }

    public static void main(String[] words) throws Exception {
        FirstKey it = new FirstKey();
        it.map.put(5, "five");
        Meet.run(2, me -> {
            if (me == 0) {
                it.twice();
                return;
            }
            Meet.both();
            it.map.put(3, "three");
            Meet.both();
        });
    }
}
