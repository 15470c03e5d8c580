import java.util.List;
import java.util.concurrent.ArrayBlockingQueue;
import java.util.concurrent.BlockingQueue;
import java.util.concurrent.LinkedBlockingDeque;
import java.util.concurrent.LinkedBlockingQueue;
import java.util.concurrent.LinkedTransferQueue;
import java.util.concurrent.PriorityBlockingQueue;
import java.util.concurrent.SynchronousQueue;

// S: producers and consumers by each kind of queue: a put is one step, and so is a take
public class OfEachKind {
    static final List<BlockingQueue<Integer>> queues = List.of(new ArrayBlockingQueue<>(2), new LinkedBlockingQueue<>(),
            new PriorityBlockingQueue<>(), new SynchronousQueue<>(), new SynchronousQueue<>(true), new LinkedTransferQueue<>(),
            new LinkedBlockingDeque<>(3));
    static void put(BlockingQueue<Integer> queue, int number) throws InterruptedException { queue.put(number); }
    static int take(BlockingQueue<Integer> queue) throws InterruptedException { return queue.take(); }
    public static void main(String[] words) throws Exception {
        for (BlockingQueue<Integer> queue : queues)
            Meet.run(4, me -> {
                // Small numbers are the same objects for all.
                for (int one = 0; one < 10; one++) {
                    if (me < 2) put(queue, one);
                    else take(queue);
                }
            });
        System.out.println("ok");
    }
}
