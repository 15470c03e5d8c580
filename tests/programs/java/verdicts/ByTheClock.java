import java.util.Timer;
import java.util.TimerTask;
import java.util.concurrent.CountDownLatch;
import java.util.concurrent.Executors;
import java.util.concurrent.ScheduledExecutorService;
import java.util.concurrent.TimeUnit;
import java.util.concurrent.atomic.AtomicInteger;

// S: tasks at a fixed rate or delay, one behind the other, and a timer's: each adds to what only the tasks of its thread use
public class ByTheClock {
    int count, other;
    final AtomicInteger ticks = new AtomicInteger();
    void tick() { count++; }
    void beat() { other++; }
    public static void main(String[] words) throws Exception {
        ByTheClock it = new ByTheClock();
        ScheduledExecutorService pool = Executors.newScheduledThreadPool(1);
        CountDownLatch done = new CountDownLatch(12);
        pool.scheduleAtFixedRate(() -> {
            it.tick();
            done.countDown();
        }, 0, 1, TimeUnit.MILLISECONDS);
        pool.scheduleWithFixedDelay(() -> {
            it.tick();
            done.countDown();
        }, 1, 1, TimeUnit.MILLISECONDS);
        Timer timer = new Timer(true);
        timer.schedule(new TimerTask() {
            @Override public void run() {
                it.beat();
                done.countDown();
            }
        }, 0, 1);
        done.await();
        timer.cancel();
        pool.shutdown();
        pool.awaitTermination(20, TimeUnit.SECONDS);
        System.out.println("ok");
    }
}
