import java.util.Queue;
import java.util.concurrent.ConcurrentLinkedQueue;

// V: another thread clears a queue between two puts that belong together
public class ClearedBetween {
    private final Queue<Object> queue = new ConcurrentLinkedQueue<>();

    void addBoth() {
        queue.add("a");
        Meet.both();
        Meet.both();
        queue.add("b");
    }
    void clear() { queue.clear(); }

    public static void main(String[] words) throws Exception {
        ClearedBetween it = new ClearedBetween();
        Meet.run(2, me -> {
            if (me == 0) it.addBoth();
            else {
                Meet.both();
                it.clear();
                Meet.both();
            }
        });
    }
}
