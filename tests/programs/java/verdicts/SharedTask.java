import java.util.concurrent.ArrayBlockingQueue;
import java.util.concurrent.ConcurrentLinkedQueue;
import java.util.concurrent.Executors;
import java.util.concurrent.ThreadPoolExecutor;
import java.util.concurrent.TimeUnit;
import java.util.concurrent.atomic.AtomicInteger;

// S: two threads give a pool one Runnable several times, as serial executors and mailboxes do: the order in which they do so is no matter
public class SharedTask {
    /** A mailbox, which gives itself to the pool for each message. */
    static class Mailbox implements Runnable {
        final ConcurrentLinkedQueue<String> messages = new ConcurrentLinkedQueue<>();
        @Override public void run() { messages.poll(); }
    }
    static final Mailbox BOX = new Mailbox();
    static final ThreadPoolExecutor POOL = (ThreadPoolExecutor) Executors.newFixedThreadPool(1);
    static final AtomicInteger refused = new AtomicInteger();
    /** Takes no more than one task: others run where they were given. */
    static final ThreadPoolExecutor SMALL = new ThreadPoolExecutor(1, 1, 1, TimeUnit.DAYS, new ArrayBlockingQueue<>(1),
            new ThreadPoolExecutor.CallerRunsPolicy());

    static void twice() {
        POOL.execute(BOX);
        Turns.say("first");
        Turns.await("second");
        POOL.execute(BOX);
    }
    static void once() { POOL.execute(BOX); }
    static void several() {
        for (int one = 0; one < 20; one++) SMALL.execute(BOX);
    }
    public static void main(String[] words) throws Exception {
        POOL.prestartAllCoreThreads();
        SMALL.prestartAllCoreThreads();
        Turns.run(SharedTask::twice, () -> {
            Turns.await("first");
            once();
            Turns.say("second");
        });
        Turns.run(SharedTask::several, SharedTask::several);
        for (ThreadPoolExecutor one : new ThreadPoolExecutor[] {POOL, SMALL}) {
            one.shutdown();
            one.awaitTermination(20, TimeUnit.SECONDS);
        }
        System.out.println("ok");
    }
}
