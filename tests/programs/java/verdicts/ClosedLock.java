import java.util.concurrent.locks.ReentrantLock;

// S: a lock that try-with-resources gives back, also where an exception leaves the block
public class ClosedLock {
    static final ReentrantLock LOCK = new ReentrantLock();
    static int count;

    static class Held implements AutoCloseable {
        Held() { LOCK.lock(); }
        @Override public void close() { LOCK.unlock(); }
    }
    static void add(boolean fails) {
        try (Held held = new Held()) {
            count++;
            if (fails) throw new IllegalStateException();
            count++;
        } catch (IllegalStateException expected) {
            // It has no lock any more.
        }
    }
    static void run() {
        for (int one = 0; one < 50; one++) add(one % 3 == 0);
    }
    public static void main(String[] words) {
        Turns.run(ClosedLock::run, ClosedLock::run);
        System.out.println(count);
    }
}
