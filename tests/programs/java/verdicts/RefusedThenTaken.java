import java.util.concurrent.ArrayBlockingQueue;
import java.util.concurrent.BlockingQueue;

// V: a full queue refuses an object, and once another thread has made room, and said so, it is still missing
public class RefusedThenTaken {
    private final BlockingQueue<Object> queue = new ArrayBlockingQueue<>(1);
    private boolean hasRoom;

    boolean offer() {
        boolean isPut = queue.offer("second");
        Meet.both();
        Meet.both();
        return isPut || hasRoom;
    }
    void take() {
        queue.poll();
        hasRoom = true;
    }

    public static void main(String[] words) throws Exception {
        RefusedThenTaken it = new RefusedThenTaken();
        it.queue.add("first");
        Meet.run(2, me -> {
            if (me == 0) it.offer();
            else {
                Meet.both();
                it.take();
                Meet.both();
            }
        });
    }
}
