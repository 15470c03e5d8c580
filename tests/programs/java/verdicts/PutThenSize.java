import java.util.concurrent.ConcurrentHashMap;

// S: another key is put between a put and a look at the size: as if it had come before both
public class PutThenSize {
    private final ConcurrentHashMap<Object, Object> map = new ConcurrentHashMap<>();

    int putAndCount() {
        map.put("a", 1);
        Meet.both();
        Meet.both();
        return map.size();
    }
    void put() { map.put("b", 2); }

    public static void main(String[] words) throws Exception {
        PutThenSize it = new PutThenSize();
        Meet.run(2, me -> {
            if (me == 0) it.putAndCount();
            else {
                Meet.both();
                it.put();
                Meet.both();
            }
        });
    }
}
