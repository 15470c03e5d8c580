import java.util.concurrent.Executors;
import java.util.concurrent.ScheduledExecutorService;
import java.util.concurrent.TimeUnit;

// V: a task that is repeated reads a counter and writes it, and the program's thread writes in between
public class ScheduledTwice {
    static int ticks;
    static void tick() {
        int before = ticks;
        Turns.say("read");
        Turns.await("written");
        ticks = before + 1;
    }
    public static void main(String[] words) throws InterruptedException {
        ScheduledExecutorService pool = Executors.newScheduledThreadPool(1);
        pool.scheduleWithFixedDelay(ScheduledTwice::tick, 0, 1, TimeUnit.MILLISECONDS);
        Turns.await("read");
        ticks = 100;
        Turns.say("written");
        pool.shutdown();
        System.out.println(pool.awaitTermination(20, TimeUnit.SECONDS));
    }
}
