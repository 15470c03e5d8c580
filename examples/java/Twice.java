import java.lang.ref.ReferenceQueue;
import java.util.Collections;
import java.util.IdentityHashMap;
import java.util.Set;
import java.util.concurrent.CyclicBarrier;
import org.apache.batik.util.CleanerThread;

/**
 * Whether Batik 1.16 makes the one queue of its CleanerThread twice: getReferenceQueue looks at the queue, and doesn't look again
 * within the lock. Of several queues all but the last are never read, so what they should clean stays.
 *
 *   java -cp .:batik-all.jar Twice THREADS
 */
public class Twice {
    public static void main(String[] words) throws Exception {
        int count = Integer.parseInt(words[0]);
        Class.forName("org.apache.batik.util.CleanerThread");
        CyclicBarrier start = new CyclicBarrier(count);
        Set<ReferenceQueue<?>> queues = Collections.synchronizedSet(Collections.newSetFromMap(new IdentityHashMap<>()));
        Thread[] threads = new Thread[count];
        for (int one = 0; one < count; one++) {
            threads[one] = new Thread(() -> {
                try {
                    start.await();
                } catch (Exception impossible) {
                    throw new AssertionError(impossible);
                }
                queues.add(CleanerThread.getReferenceQueue());
            });
            threads[one].start();
        }
        for (Thread one : threads) one.join();
        System.out.println(queues.size() + " queues");
    }
}
