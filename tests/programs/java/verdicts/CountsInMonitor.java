import java.util.Collections;
import java.util.HashMap;
import java.util.Map;

// S: the calls of a synchronized map between which nobody may come are made within its monitor
public class CountsInMonitor {
    private static final Map<String, Integer> counts = Collections.synchronizedMap(new HashMap<>());

    static void count(String word, Runnable between) {
        synchronized (counts) {
            Integer old = counts.get(word);
            between.run();
            counts.put(word, old == null ? 1 : old + 1);
        }
    }

    static int total() {
        int all = 0;
        synchronized (counts) {
            for (int one : counts.values()) all += one;
        }
        return all;
    }

    public static void main(String[] words) {
        Thread[] other = new Thread[1];
        other[0] = new Thread(() -> {
            Turns.await("counts in monitor");
            counts.putIfAbsent("b", 0);
            count("a", () -> { });
            total();
        });
        other[0].start();
        count("a", () -> {
            Turns.say("counts in monitor");
            while (other[0].getState() != Thread.State.BLOCKED) Thread.yield();
        });
        try {
            other[0].join();
        } catch (InterruptedException end) {
            throw new IllegalStateException(end);
        }
        System.out.println(total());
    }
}
