import java.util.Map;
import java.util.concurrent.ConcurrentHashMap;

/** A key that is made where it isn't there, by one call of the map, or apart: by two. Two keys are two variables. */
public class Maps {
    final Map<String, Object> map = new ConcurrentHashMap<>();

    void make(String key) { map.putIfAbsent(key, key + "!"); }
    void makeApart(String key) {
        boolean isThere = map.containsKey(key);
        Meet.both();
        if (!isThere) map.put(key, key + "?");
    }
    /** The other thread puts its own key meanwhile. */
    void putOwn(int me) {
        map.put("own" + me, 1);
        Meet.both();
        map.put("own" + me, 2);
    }
    int look() { return map.size(); }
    void lookTwice() {
        int before = look();
        Meet.both();
        map.put("last" + before, look());
    }

    public static void main(String[] words) throws Exception {
        Maps it = new Maps();
        Meet.run(2, me -> {
            if (words[0].equals("atomic")) it.putOwn(me);
            for (int one = 0; one < 5; one++) {
                if (words[0].equals("atomic")) it.make("k" + one);
                else it.makeApart("k" + one);
            }
            if (!words[0].equals("atomic")) it.lookTwice();
        });
        System.out.println(it.map.size());
    }
}
