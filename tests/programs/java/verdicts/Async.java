import java.util.concurrent.CompletableFuture;
import java.util.concurrent.ExecutorService;
import java.util.concurrent.Executors;

// V: two tasks of a CompletableFuture add to a field at the same time
public class Async {
    private int sum;

    void add() {
        int before = sum;
        Meet.both();
        sum = before + 1;
    }

    public static void main(String[] words) {
        Async it = new Async();
        ExecutorService pool = Executors.newFixedThreadPool(2);
        CompletableFuture<Void> first = CompletableFuture.runAsync(it::add, pool);
        CompletableFuture<Void> second = CompletableFuture.runAsync(it::add, pool);
        CompletableFuture.allOf(first, second).join();
        pool.shutdown();
    }
}
