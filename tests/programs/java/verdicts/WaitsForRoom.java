import java.util.concurrent.ArrayBlockingQueue;

// S: a put that still waits for room isn't the one whose object is taken, though it is the same object
public class WaitsForRoom {
    static final ArrayBlockingQueue<Integer> queue = new ArrayBlockingQueue<>(1);
    static volatile int told;

    static int put() throws InterruptedException {
        queue.put(5);
        return told;
    }
    public static void main(String[] words) throws Exception {
        queue.put(5);
        Thread waits = new Thread(() -> {
            try {
                put();
            } catch (InterruptedException impossible) {
                throw new AssertionError(impossible);
            }
        });
        waits.start();
        Meet.untilStuck(waits, Thread.State.WAITING);
        told = 1;
        queue.take();
        waits.join();
        System.out.println("ok " + queue.take());
    }
}
