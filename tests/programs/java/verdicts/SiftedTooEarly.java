import java.util.concurrent.LinkedBlockingQueue;

// V: the same if the other takes out what it doesn't want
public class SiftedTooEarly {
    private final LinkedBlockingQueue<Object> queue = new LinkedBlockingQueue<>();
    private volatile boolean isClosed;

    void add() {
        if (isClosed) return;
        Meet.both();
        Meet.both();
        queue.add("late");
    }
    void close() {
        Meet.both();
        isClosed = true;
        queue.removeIf(item -> item != this);
        Meet.both();
    }

    public static void main(String[] words) throws Exception {
        SiftedTooEarly it = new SiftedTooEarly();
        it.queue.add("early");
        Meet.run(2, me -> {
            if (me == 0) it.add();
            else it.close();
        });
    }
}
