import java.util.concurrent.Executors;
import java.util.concurrent.ThreadPoolExecutor;
import java.util.concurrent.TimeUnit;

// V: gives a task to a pool for the second time, and then waits for what that run of it has done
public class AskAndWait {
    static volatile int runs;
    static final Runnable TASK = () -> runs++;
    static final ThreadPoolExecutor POOL = (ThreadPoolExecutor) Executors.newFixedThreadPool(1);

    static void ask(int wanted) {
        POOL.execute(TASK);
        while (runs < wanted) Thread.yield();
    }
    public static void main(String[] words) throws Exception {
        POOL.prestartAllCoreThreads();
        POOL.execute(TASK);
        while (runs < 1) Thread.yield();
        ask(2);
        POOL.shutdown();
        POOL.awaitTermination(20, TimeUnit.SECONDS);
    }
}
