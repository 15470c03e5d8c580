import java.util.concurrent.CyclicBarrier;
import org.apache.logging.log4j.LogManager;

/**
 * Threads each log one line by Log4j 2.19, as the first thing that is logged. Lines may be lost: LoggerContext.start sets the state
 * before it sets the configuration, so a thread that comes meanwhile logs by the default one, which takes only errors.
 *
 *   java -cp .:log4j-api.jar:log4j-core.jar -Dlog4j2.configurationFile=first.xml First THREADS
 *
 * It says how many of the lines were written. first.xml writes each that begins with `line`.
 */
public class First {
    public static void main(String[] words) throws Exception {
        int count = Integer.parseInt(words[0]);
        CyclicBarrier start = new CyclicBarrier(count);
        Thread[] threads = new Thread[count];
        for (int one = 0; one < count; one++) {
            String name = "logger" + one;
            threads[one] = new Thread(() -> {
                try {
                    start.await();
                } catch (Exception impossible) {
                    throw new AssertionError(impossible);
                }
                LogManager.getLogger(name).info("line");
            });
            threads[one].start();
        }
        for (Thread one : threads) one.join();
    }
}
