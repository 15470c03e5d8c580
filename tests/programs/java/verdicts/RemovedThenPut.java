import java.util.concurrent.ConcurrentHashMap;

// V: another thread removes a key, by its value, between a look and a write
public class RemovedThenPut {
    private final ConcurrentHashMap<String, String> map = new ConcurrentHashMap<>();

    void change() {
        String before = map.get("a");
        Meet.both();
        Meet.both();
        map.replace("a", before, "c");
    }
    boolean remove() { return map.remove("a", "b"); }

    public static void main(String[] words) throws Exception {
        RemovedThenPut it = new RemovedThenPut();
        it.map.put("a", "b");
        Meet.run(2, me -> {
            if (me == 0) it.change();
            else {
                Meet.both();
                if (!it.remove()) throw new AssertionError();
                Meet.both();
            }
        });
    }
}
