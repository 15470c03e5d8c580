import java.util.NoSuchElementException;
import java.util.concurrent.ConcurrentSkipListMap;

// V: a map has no first key, and has keys later in the same block
public class FirstOfNone {
    private final ConcurrentSkipListMap<String, String> map = new ConcurrentSkipListMap<>();

    boolean isEmptyTwice() {
        try {
            map.firstKey();
        } catch (NoSuchElementException wanted) {
            Meet.both();
            Meet.both();
        }
        return map.isEmpty();
    }
    void put() { map.put("a", "b"); }

    public static void main(String[] words) throws Exception {
        FirstOfNone it = new FirstOfNone();
        Meet.run(2, me -> {
            if (me == 0) it.isEmptyTwice();
            else {
                Meet.both();
                it.put();
                Meet.both();
            }
        });
    }
}
