import java.util.Collections;
import java.util.concurrent.ConcurrentSkipListMap;

// S: two threads write keys of their own to a map in reverse order
public class KeysInReverse {
    private final ConcurrentSkipListMap<String, Integer> map = new ConcurrentSkipListMap<>(Collections.reverseOrder());

    void putTwice(String key) {
        map.put(key, 1);
        Meet.both();
        map.put(key, 2);
    }

    public static void main(String[] words) throws Exception {
        KeysInReverse it = new KeysInReverse();
        Meet.run(2, me -> it.putTwice("key " + me));
    }
}
