import java.util.concurrent.ConcurrentHashMap;

// S: another key is put between a look at the size and a put: as if it had come behind both
public class SizeThenPut {
    private final ConcurrentHashMap<Object, Object> map = new ConcurrentHashMap<>();

    int countAndPut() {
        int size = map.size();
        Meet.both();
        Meet.both();
        map.put("a", 1);
        return size;
    }
    void put() { map.put("b", 2); }

    public static void main(String[] words) throws Exception {
        SizeThenPut it = new SizeThenPut();
        Meet.run(2, me -> {
            if (me == 0) it.countAndPut();
            else {
                Meet.both();
                it.put();
                Meet.both();
            }
        });
    }
}
