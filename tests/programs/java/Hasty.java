import java.util.concurrent.ConcurrentHashMap;
import java.util.concurrent.ConcurrentMap;
import java.util.concurrent.atomic.AtomicInteger;

/** Short tests of checks that are acted upon later, as a library's author would write them: nothing makes the threads overlap. */
public class Hasty {
    private int count;
    private volatile int flag;
    private final AtomicInteger number = new AtomicInteger();
    private final ConcurrentMap<String, Integer> map = new ConcurrentHashMap<>();

    synchronized int get() { return count; }
    synchronized void set(int value) { count = value; }

    void addByMonitor() { set(get() + 1); }
    void addByFlag() { flag = flag + 1; }
    void addByAtomic() { number.set(number.get() + 1); }
    void addByMap() {
        Integer before = map.get("key");
        map.put("key", before == null ? 1 : before + 1);
    }
    private void add(String how) {
        switch (how) {
            case "monitor": addByMonitor(); return;
            case "flag": addByFlag(); return;
            case "atomic": addByAtomic(); return;
            default: addByMap();
        }
    }

    public static void main(String[] words) throws Exception {
        for (String how : words) {
            Hasty it = new Hasty();
            Thread[] all = new Thread[4];
            for (int one = 0; one < all.length; one++) (all[one] = new Thread(() -> {
                for (int time = 0; time < 10; time++) it.add(how);
            })).start();
            for (Thread one : all) one.join();
        }
    }
}
