import java.util.concurrent.ConcurrentHashMap;
import java.util.concurrent.ConcurrentMap;

// V: another thread counts a map's keys between two puts that belong together
public class LookBetween {
    private final ConcurrentMap<String, Integer> map = new ConcurrentHashMap<>();

    void putBoth() {
        map.put("a", 1);
        Meet.both();
        Meet.both();
        map.put("b", 2);
    }
    int count() {
        Meet.both();
        int size = map.size();
        Meet.both();
        return size;
    }

    public static void main(String[] words) throws Exception {
        LookBetween it = new LookBetween();
        Meet.run(2, me -> {
            if (me == 0) it.putBoth();
            else it.count();
        });
    }
}
