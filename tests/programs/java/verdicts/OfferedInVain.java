import java.util.concurrent.ArrayBlockingQueue;
import java.util.concurrent.BlockingQueue;

// V: what a full queue has refused before doesn't stand for what it takes now: who takes that comes behind who puts it
public class OfferedInVain {
    private final BlockingQueue<Object> queue = new ArrayBlockingQueue<>(1);
    private int count;

    int putAndLook() {
        queue.offer(this);
        Meet.both();
        Meet.both();
        return count;
    }
    void takeAndCount() {
        queue.poll();
        count++;
    }

    public static void main(String[] words) throws Exception {
        OfferedInVain it = new OfferedInVain();
        it.queue.offer(it);
        it.queue.offer(it);
        it.queue.poll();
        Meet.run(2, me -> {
            if (me == 0) it.putAndLook();
            else {
                Meet.both();
                it.takeAndCount();
                Meet.both();
            }
        });
    }
}
