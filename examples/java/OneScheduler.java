import java.util.Properties;
import java.util.concurrent.CyclicBarrier;
import java.util.concurrent.atomic.AtomicInteger;
import org.quartz.SchedulerException;
import org.quartz.impl.StdSchedulerFactory;

/**
 * Whether Quartz 2.3.2 refuses a scheduler to threads that ask one factory for its only scheduler at the same time: getScheduler
 * looks whether there is one, and makes one if there is none. The threads of those that are refused stay.
 *
 *   java -cp .:quartz2.jar:slf4j-api.jar:slf4j-nop.jar OneScheduler THREADS ROUNDS
 */
public class OneScheduler {
    private static StdSchedulerFactory factory(int round) throws SchedulerException {
        Properties properties = new Properties();
        properties.put("org.quartz.scheduler.instanceName", "s" + round);
        properties.put("org.quartz.threadPool.class", "org.quartz.simpl.SimpleThreadPool");
        properties.put("org.quartz.threadPool.threadCount", "1");
        properties.put("org.quartz.scheduler.skipUpdateCheck", "true");
        return new StdSchedulerFactory(properties);
    }

    /** How many of the threads were refused. */
    private static int round(int count, StdSchedulerFactory factory) throws InterruptedException {
        CyclicBarrier start = new CyclicBarrier(count);
        AtomicInteger refused = new AtomicInteger();
        Thread[] threads = new Thread[count];
        for (int one = 0; one < count; one++) {
            threads[one] = new Thread(() -> {
                try {
                    start.await();
                    factory.getScheduler();
                } catch (SchedulerException wrong) {
                    refused.incrementAndGet();
                } catch (Exception impossible) {
                    throw new AssertionError(impossible);
                }
            });
            threads[one].start();
        }
        for (Thread one : threads) one.join();
        return refused.get();
    }

    public static void main(String[] words) throws Exception {
        int count = Integer.parseInt(words[0]), rounds = Integer.parseInt(words[1]), refusing = 0, left = 0;
        for (int round = 0; round < rounds; round++) {
            StdSchedulerFactory factory = factory(round);
            if (round(count, factory) > 0) refusing++;
            factory.getScheduler().shutdown(true);
        }
        for (Thread one : Thread.getAllStackTraces().keySet()) if (one.getName().matches("s[0-9]+_.*")) left++;
        System.out.println(refusing + " of " + rounds + " rounds refuse a scheduler, and " + left + " threads are left");
        System.exit(0);
    }
}
