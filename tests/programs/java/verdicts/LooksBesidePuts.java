import java.util.concurrent.Callable;
import java.util.concurrent.ConcurrentLinkedDeque;
import java.util.concurrent.DelayQueue;
import java.util.concurrent.Delayed;
import java.util.concurrent.PriorityBlockingQueue;
import java.util.concurrent.TimeUnit;

// S: puts between two looks of another thread don't change what these find
public class LooksBesidePuts {
    static class Later implements Delayed {
        @Override public long getDelay(TimeUnit unit) { return unit.convert(1, TimeUnit.HOURS); }
        @Override public int compareTo(Delayed other) { return 0; }
    }

    static Object lookTwice(Callable<Object> look) throws Exception {
        Object before = look.call();
        Meet.both();
        Meet.both();
        return before == look.call();
    }
    static void put(Callable<Object> call) throws Exception { call.call(); }

    static void run(Callable<Object> look, Callable<Object> call) throws Exception {
        Meet.run(2, me -> {
            if (me == 0) lookTwice(look);
            else {
                Meet.both();
                put(call);
                Meet.both();
            }
        });
    }

    public static void main(String[] words) throws Exception {
        ConcurrentLinkedDeque<Object> deque = new ConcurrentLinkedDeque<>();
        deque.add("a");
        run(() -> deque.isEmpty(), () -> deque.offerFirst("b"));
        run(() -> deque.peekLast(), () -> deque.offerFirst("c"));
        run(() -> deque.peek(), () -> deque.add("d"));
        run(() -> deque.contains("a"), () -> deque.add("e"));
        PriorityBlockingQueue<Integer> sorted = new PriorityBlockingQueue<>();
        sorted.add(1);
        run(() -> sorted.peek(), () -> sorted.add(2));
        DelayQueue<Later> delayed = new DelayQueue<>();
        delayed.add(new Later());
        run(() -> delayed.poll(), () -> delayed.add(new Later()));
    }
}
