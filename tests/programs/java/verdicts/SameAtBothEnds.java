import java.util.concurrent.BlockingDeque;
import java.util.concurrent.ConcurrentLinkedDeque;
import java.util.concurrent.LinkedBlockingDeque;
import java.util.concurrent.TimeUnit;

// S: an object that two threads have put is taken from the end at which the other thread's stands
public class SameAtBothEnds {
    enum Mark { END }
    static volatile int told;

    interface Step {
        void run() throws Exception;
    }
    static void run(Step step) {
        try {
            step.run();
        } catch (Exception wrong) {
            throw new AssertionError(wrong);
        }
    }

    static int first(Step put) {
        run(put);
        Turns.say("first");
        Turns.await("taken");
        return told;
    }
    static void second(Step put) {
        Turns.await("first");
        run(put);
        Turns.say("second");
    }
    static void third(Step take) {
        Turns.await("second");
        run(take);
        told = 1;
        Turns.say("taken");
    }
    /** No block, as its name is `run`. */
    static void run(Step first, Step second, Step take) {
        Turns.run(() -> first(first), () -> second(second), () -> third(take));
    }

    public static void main(String[] words) {
        BlockingDeque<Object> blocking = new LinkedBlockingDeque<>();
        run(() -> blocking.add(true), () -> blocking.put(true), () -> blocking.takeLast());
        run(() -> blocking.add(5), () -> blocking.putFirst(5), () -> blocking.takeFirst());
        blocking.clear();
        run(() -> blocking.push(Mark.END), () -> blocking.offerLast(Mark.END, 1, TimeUnit.DAYS), () -> blocking.pollLast());
        ConcurrentLinkedDeque<Object> linked = new ConcurrentLinkedDeque<>();
        run(() -> linked.offer("end"), () -> linked.offerFirst("end"), () -> linked.poll());
        linked.clear();
        run(() -> linked.addFirst("x"), () -> linked.addLast("x"), () -> linked.removeLastOccurrence("x"));
        linked.clear();
        run(() -> linked.addLast("y"), () -> linked.addFirst("y"), () -> linked.peek());
        run(() -> linked.addFirst("z"), () -> linked.addLast("z"), () -> linked.getLast());
        System.out.println("ok");
    }
}
