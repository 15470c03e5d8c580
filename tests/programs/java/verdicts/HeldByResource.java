import java.util.concurrent.locks.Lock;
import java.util.concurrent.locks.ReentrantLock;

// S: a lock is held by a resource that a try closes, also if its body throws, and then another thread has it before the next try
public class HeldByResource {
    static class Held implements AutoCloseable {
        private final Lock lock;

        Held(Lock lock) {
            this.lock = lock;
            lock.lock();
        }

        @Override public void close() { lock.unlock(); }
    }

    private final Lock lock = new ReentrantLock();
    private String settings = "a=1";
    private int errors;

    void change(String text) {
        try (Held held = new Held(lock)) {
            if (!text.contains("=")) {
                errors++;
                throw new IllegalArgumentException(text);
            }
            settings = settings + ";" + text;
        }
    }

    public static void main(String[] words) {
        HeldByResource config = new HeldByResource();
        Turns.run(() -> {
            try {
                config.change("nonsense");
            } catch (IllegalArgumentException wrong) {
                Turns.say("thrown");
                Turns.await("changed");
            }
            config.change("b=2");
        }, () -> {
            Turns.await("thrown");
            config.change("c=3");
            Turns.say("changed");
        });
        System.out.println(config.settings + " " + config.errors);
    }
}
