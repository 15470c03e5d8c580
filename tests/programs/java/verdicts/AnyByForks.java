import java.util.List;
import java.util.concurrent.Callable;
import java.util.concurrent.ExecutorService;
import java.util.concurrent.ForkJoinPool;

// V: a block waits for the result of any task of a fork/join pool
public class AnyByForks {
    static int anyOf(ExecutorService pool, List<Callable<Integer>> tasks) throws Exception { return pool.invokeAny(tasks); }

    public static void main(String[] words) throws Exception {
        ExecutorService pool = new ForkJoinPool(2);
        anyOf(pool, List.of(() -> 1));
        pool.shutdown();
    }
}
