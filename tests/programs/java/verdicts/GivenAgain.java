import java.util.concurrent.LinkedBlockingQueue;
import java.util.concurrent.ThreadPoolExecutor;
import java.util.concurrent.TimeUnit;

// V: a task is removed from a pool and given again: its thread comes behind the second time, and before the block reads what it did
public class GivenAgain {
    static int done;

    static int gives(ThreadPoolExecutor pool, Runnable task) {
        pool.execute(task);
        Meet.open();
        Meet.untilDone();
        return done;
    }

    public static void main(String[] words) throws Exception {
        ThreadPoolExecutor pool = new ThreadPoolExecutor(1, 1, 0, TimeUnit.SECONDS, new LinkedBlockingQueue<>());
        pool.execute(() -> {
            while (!Meet.isOpen()) Thread.yield();
        });
        Runnable task = () -> {
            done = 1;
            Meet.done();
        };
        pool.execute(task);
        if (!pool.remove(task) || pool.remove(task)) throw new AssertionError();
        gives(pool, task);
        pool.shutdown();
    }
}
