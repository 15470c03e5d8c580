import java.util.concurrent.Executors;
import java.util.concurrent.ScheduledExecutorService;
import java.util.concurrent.TimeUnit;

// S: a scheduled task hands a plain number on, and each task is a block
public class Later {
    private int value;

    int step() { return value = value * 3 + value; }

    public static void main(String[] words) throws Exception {
        Later it = new Later();
        it.value = 1;
        ScheduledExecutorService pool = Executors.newScheduledThreadPool(2);
        for (int time = 0; time < 5; time++) {
            it.step();
            pool.schedule(it::step, 1, TimeUnit.MILLISECONDS).get();
        }
        pool.shutdown();
    }
}
