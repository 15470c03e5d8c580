import java.util.concurrent.ConcurrentHashMap;
import java.util.concurrent.ConcurrentMap;

// V: containsKey, then get: another thread removes the key in between and puts it back
public class ContainsThenGet {
    private final ConcurrentMap<String, Integer> map = new ConcurrentHashMap<>();

    int look() {
        if (!map.containsKey("a")) return 0;
        Meet.both();
        Meet.both();
        return map.get("a");
    }

    public static void main(String[] words) throws Exception {
        ContainsThenGet it = new ContainsThenGet();
        it.map.put("a", 1);
        Meet.run(2, me -> {
            if (me == 0) {
                it.look();
                return;
            }
            Meet.both();
            it.map.remove("a");
            it.map.put("a", 2);
            Meet.both();
        });
    }
}
