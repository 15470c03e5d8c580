import java.util.concurrent.ArrayBlockingQueue;
import java.util.concurrent.BlockingQueue;
import java.util.concurrent.LinkedBlockingDeque;
import java.util.concurrent.TimeUnit;

// S: what a full queue refuses, between two looks at its size, changes nothing
public class RefusedOffers {
    private final BlockingQueue<Object> queue;

    RefusedOffers(BlockingQueue<Object> queue) {
        this.queue = queue;
        queue.add("first");
    }

    int sizeTwice() {
        int before = queue.size();
        Meet.both();
        Meet.both();
        return queue.size() - before;
    }
    void offer() throws InterruptedException {
        if (queue.offer("second") || queue.offer("second", 1, TimeUnit.NANOSECONDS)) throw new AssertionError();
        try {
            queue.add("second");
            throw new AssertionError();
        } catch (IllegalStateException full) {
            if (queue instanceof LinkedBlockingDeque && ((LinkedBlockingDeque<Object>) queue).offerFirst("second")) throw new AssertionError();
        }
    }

    static void run(RefusedOffers it) throws Exception {
        Meet.run(2, me -> {
            if (me == 0) it.sizeTwice();
            else {
                Meet.both();
                it.offer();
                Meet.both();
            }
        });
    }
    public static void main(String[] words) throws Exception {
        run(new RefusedOffers(new ArrayBlockingQueue<>(1)));
        run(new RefusedOffers(new LinkedBlockingDeque<>(1)));
    }
}
