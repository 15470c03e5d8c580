import java.util.concurrent.LinkedBlockingQueue;

// V: one asks whether a queue is closed, and puts something there once another has closed and cleared it
public class ClearedTooEarly {
    private final LinkedBlockingQueue<Object> queue = new LinkedBlockingQueue<>();
    private volatile boolean isClosed;

    void add() {
        if (isClosed) return;
        Meet.both();
        Meet.both();
        queue.add("late");
    }
    void close() {
        Meet.both();
        isClosed = true;
        queue.clear();
        Meet.both();
    }

    public static void main(String[] words) throws Exception {
        ClearedTooEarly it = new ClearedTooEarly();
        it.queue.add("early");
        Meet.run(2, me -> {
            if (me == 0) it.add();
            else it.close();
        });
    }
}
