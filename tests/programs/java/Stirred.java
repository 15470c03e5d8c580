import java.util.concurrent.atomic.AtomicInteger;

/**
 * How long a thread takes for a thousand places of one kind, at which it may pause: a line for each kind, and the least of five
 * rounds, each by a thread of its own. Its calls of `block` come from a class that isn't logged.
 */
public class Stirred {
    private static final int PLACES = 1000, ROUNDS = 5;
    private static final long LEAST_NANOSECONDS = 16_000_000;
    private final AtomicInteger number = new AtomicInteger();
    private volatile int flag;
    private int sum;

    private void method() { }
    void block() { }
    private void methods() {
        for (int one = 0; one < PLACES; one++) method();
    }
    private void monitors() {
        for (int one = 0; one < PLACES; one++)
            synchronized (this) {
                sum = one;
            }
    }
    private void volatiles() {
        for (int one = 0; one < PLACES; one++) flag = one;
    }
    private void calls() {
        for (int one = 0; one < PLACES; one++) number.set(one);
    }
    private static void measure(String kind, Runnable places) throws InterruptedException {
        long[] least = {Long.MAX_VALUE};
        for (int round = 0; round < ROUNDS; round++) {
            Thread one = new Thread(() -> {
                long start = System.nanoTime();
                places.run();
                least[0] = Math.min(least[0], System.nanoTime() - start);
            });
            one.start();
            one.join();
        }
        System.out.println(kind + (least[0] < LEAST_NANOSECONDS ? ": not paused" : ": paused"));
    }

    public static void main(String[] words) throws Exception {
        Stirred it = new Stirred();
        for (String word : words)
            switch (word) {
                case "methods": measure(word, it::methods); break;
                case "blocks": measure(word, () -> Unlogged.calls(it)); break;
                case "monitors": measure(word, it::monitors); break;
                case "volatiles": measure(word, it::volatiles); break;
                default: measure(word, it::calls);
            }
    }
}
class Unlogged {
    static void calls(Stirred it) {
        for (int one = 0; one < 1000; one++) it.block();
    }
}
