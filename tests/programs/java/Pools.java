import java.util.ArrayList;
import java.util.List;
import java.util.Timer;
import java.util.TimerTask;
import java.util.concurrent.CompletableFuture;
import java.util.concurrent.CountDownLatch;
import java.util.concurrent.ExecutorService;
import java.util.concurrent.Executors;
import java.util.concurrent.Future;
import java.util.concurrent.ScheduledExecutorService;
import java.util.concurrent.TimeUnit;
import java.util.stream.IntStream;

/** Tasks go to pools and results come back, and nothing else gives them order. A box's methods access it twice. */
public class Pools {
    static class Box {
        int value;

        void fill(int number) {
            value = number;
            value++;
        }
        int look() { return value + value - value; }
    }

    static int throughPool() throws Exception {
        ExecutorService pool = Executors.newFixedThreadPool(3);
        List<Future<Box>> futures = new ArrayList<>();
        for (int one = 0; one < 20; one++) {
            Box box = new Box();
            int number = one;
            box.fill(number);
            futures.add(pool.submit(() -> {
                box.fill(box.look() + number);
                return box;
            }));
        }
        int sum = 0;
        for (Future<Box> one : futures) sum += one.get().look();
        pool.shutdown();
        return sum;
    }

    static int throughOthers() throws Exception {
        Box first = new Box(), late = new Box();
        int sum = CompletableFuture.supplyAsync(() -> {
            first.fill(4);
            return first;
        }).thenApply(box -> box.look() + 1).join();
        sum += IntStream.range(0, 100).parallel().map(number -> {
            Box box = new Box();
            box.fill(number);
            return box.look();
        }).sum();
        ScheduledExecutorService later = Executors.newScheduledThreadPool(1);
        late.fill(1);
        later.schedule(() -> late.fill(late.look()), 1, TimeUnit.MILLISECONDS).get();
        later.shutdown();
        Timer timer = new Timer(true);
        CountDownLatch done = new CountDownLatch(1);
        timer.schedule(new TimerTask() {
            @Override public void run() {
                late.fill(late.look());
                done.countDown();
            }
        }, 1);
        done.await();
        return sum + late.look();
    }

    public static void main(String[] words) throws Exception { System.out.println(throughPool() + " " + throughOthers()); }
}
