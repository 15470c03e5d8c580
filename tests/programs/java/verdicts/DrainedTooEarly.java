import java.util.ArrayList;
import java.util.concurrent.LinkedBlockingQueue;

// V: the same if the other takes out all of it
public class DrainedTooEarly {
    private final LinkedBlockingQueue<Object> queue = new LinkedBlockingQueue<>();
    private volatile boolean isClosed;

    void add() {
        if (isClosed) return;
        Meet.both();
        Meet.both();
        queue.add("late");
    }
    void close() {
        Meet.both();
        isClosed = true;
        queue.drainTo(new ArrayList<>());
        Meet.both();
    }

    public static void main(String[] words) throws Exception {
        DrainedTooEarly it = new DrainedTooEarly();
        it.queue.add("early");
        Meet.run(2, me -> {
            if (me == 0) it.add();
            else it.close();
        });
    }
}
