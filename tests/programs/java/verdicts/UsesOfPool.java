import java.util.concurrent.ArrayBlockingQueue;
import java.util.concurrent.BlockingQueue;

// S: each use takes the only buffer, fills it and puts it back in one block, so the second use comes after the first
public class UsesOfPool {
    static class Buffer {
        private final char[] text = new char[8];
        private int length;

        void append(char one) { text[length++] = one; }
        String take() {
            String all = new String(text, 0, length);
            length = 0;
            return all;
        }
    }

    private static final BlockingQueue<Buffer> pool = new ArrayBlockingQueue<>(1);
    private static final BlockingQueue<String> results = new ArrayBlockingQueue<>(4);

    static void use(char from, Runnable within) {
        try {
            Buffer buffer = pool.take();
            try {
                buffer.append(from);
                within.run();
                buffer.append((char) (from + 1));
                results.put(buffer.take());
            } finally {
                pool.put(buffer);
            }
        } catch (InterruptedException end) {
            throw new IllegalStateException(end);
        }
    }

    public static void main(String[] words) throws Exception {
        pool.put(new Buffer());
        Thread second = new Thread(() -> use('x', () -> { }));
        Thread first = new Thread(() -> use('a', () -> {
            second.start();
            Meet.untilStuck(second, Thread.State.WAITING);
        }));
        first.start();
        first.join();
        second.join();
        System.out.println(results.take() + " " + results.take());
    }
}
