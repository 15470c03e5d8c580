import java.util.Properties;
import java.util.concurrent.atomic.AtomicInteger;
import org.quartz.Scheduler;
import org.quartz.SchedulerException;
import org.quartz.impl.StdSchedulerFactory;
import org.quartz.listeners.SchedulerListenerSupport;

/**
 * Whether Quartz 2.3.2 tells a listener twice that its scheduler has shut down, if several threads shut it down: shutdown looks
 * whether another thread is at it already, and notes only then that this one is.
 *
 *   java -cp .:quartz2.jar:slf4j-api.jar:slf4j-nop.jar ToldOnce THREADS ROUNDS
 */
public class ToldOnce {
    private static Scheduler scheduler(int round) throws SchedulerException {
        Properties properties = new Properties();
        properties.put("org.quartz.scheduler.instanceName", "s" + round);
        properties.put("org.quartz.threadPool.class", "org.quartz.simpl.SimpleThreadPool");
        properties.put("org.quartz.threadPool.threadCount", "1");
        properties.put("org.quartz.scheduler.skipUpdateCheck", "true");
        return new StdSchedulerFactory(properties).getScheduler();
    }

    /** How often the listener is told. */
    private static int round(int count, Scheduler scheduler) throws Exception {
        AtomicInteger told = new AtomicInteger(), here = new AtomicInteger();
        scheduler.getListenerManager().addSchedulerListener(new SchedulerListenerSupport() {
            @Override public void schedulerShutdown() { told.incrementAndGet(); }
        });
        Thread[] threads = new Thread[count];
        for (int one = 0; one < count; one++) {
            threads[one] = new Thread(() -> {
                here.incrementAndGet();
                while (here.get() < count) Thread.onSpinWait();
                try {
                    scheduler.shutdown();
                } catch (SchedulerException wrong) {
                    throw new AssertionError(wrong);
                }
            });
            threads[one].start();
        }
        for (Thread one : threads) one.join();
        return told.get();
    }

    public static void main(String[] words) throws Exception {
        int count = Integer.parseInt(words[0]), rounds = Integer.parseInt(words[1]), twice = 0;
        for (int round = 0; round < rounds; round++) if (round(count, scheduler(round)) > 1) twice++;
        System.out.println("in " + twice + " of " + rounds + " rounds the listener is told more than once");
        System.exit(0);
    }
}
