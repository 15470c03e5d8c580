import java.util.concurrent.CompletableFuture;
import java.util.concurrent.ExecutorService;
import java.util.concurrent.Executors;

// V: two tasks extend a deadline, and each takes the lock once to read and once to write; blames DeadlineTimer.extend
public class DeadlineTimer {
    private long deadline = 1000;

    synchronized long deadline() { return deadline; }
    synchronized void deadline(long time) { deadline = time; }

    void extend(long by, Runnable between) {
        long old = deadline();
        between.run();
        deadline(old + by);
    }

    public static void main(String[] words) {
        DeadlineTimer timer = new DeadlineTimer();
        ExecutorService pool = Executors.newFixedThreadPool(2);
        CompletableFuture<Void> first = CompletableFuture.runAsync(() -> timer.extend(50, () -> {
            Turns.say("old deadline");
            Turns.await("extended");
        }), pool);
        CompletableFuture<Void> second = CompletableFuture.runAsync(() -> {
            Turns.await("old deadline");
            timer.extend(70, () -> { });
            Turns.say("extended");
        }, pool);
        CompletableFuture.allOf(first, second).thenRun(() -> System.out.println(timer.deadline())).join();
        pool.shutdown();
    }
}
