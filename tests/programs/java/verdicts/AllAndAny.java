import java.util.List;
import java.util.concurrent.Callable;
import java.util.concurrent.ExecutorCompletionService;
import java.util.concurrent.ExecutorService;
import java.util.concurrent.Executors;
import java.util.concurrent.Future;
import java.util.concurrent.TimeUnit;

// S: pools that run many tasks and give their results at once, or as they come
public class AllAndAny {
    static int work(int number) { return number * number; }
    static int sum(int[] all) {
        int sum = 0;
        for (int one : all) sum += one;
        return sum;
    }
    public static void main(String[] words) throws Exception {
        ExecutorService pool = Executors.newFixedThreadPool(3);
        List<Callable<Integer>> tasks = List.of(() -> work(1), () -> work(2), () -> work(3));
        int[] all = new int[6];
        int at = 0;
        for (Future<Integer> one : pool.invokeAll(tasks)) all[at++] = one.get();
        pool.invokeAny(tasks);
        ExecutorCompletionService<Integer> each = new ExecutorCompletionService<>(pool);
        for (Callable<Integer> one : tasks) each.submit(one);
        for (int one = 0; one < 3; one++) all[at++] = each.take().get();
        pool.shutdown();
        if (!pool.awaitTermination(20, TimeUnit.SECONDS)) throw new AssertionError();
        System.out.println(sum(all));
    }
}
