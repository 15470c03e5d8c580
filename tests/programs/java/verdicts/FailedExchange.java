import java.lang.invoke.MethodHandles;
import java.lang.invoke.VarHandle;
import java.util.concurrent.atomic.AtomicBoolean;
import java.util.concurrent.atomic.AtomicInteger;
import java.util.concurrent.atomic.AtomicLongArray;
import java.util.concurrent.atomic.AtomicReference;

// S: exchanges that don't find what they want change nothing: each of them only reads
public class FailedExchange {
    static final AtomicInteger number = new AtomicInteger(7);
    static final AtomicBoolean flag = new AtomicBoolean(true);
    static final AtomicLongArray longs = new AtomicLongArray(2);
    static final AtomicReference<String> text = new AtomicReference<>("a");
    static final double[] doubles = {Double.NaN};
    static final VarHandle DOUBLES = MethodHandles.arrayElementVarHandle(double[].class);
    static final Integer[] boxes = {1000};
    static final VarHandle BOXES = MethodHandles.arrayElementVarHandle(Integer[].class);

    static void tryAll() {
        number.compareAndExchange(1, 2);
        flag.compareAndExchangeAcquire(false, false);
        longs.compareAndExchangeRelease(1, 5, 6);
        text.compareAndExchange("b", "c");
        double found = (double) DOUBLES.compareAndExchange(doubles, 0, 0.0, 1.0);
        // Equal, and another object.
        Integer box = (Integer) BOXES.compareAndExchange(boxes, 0, Integer.valueOf(1000), Integer.valueOf(2));
        if (found == found || box != 1000) throw new AssertionError(found + " " + box);
    }
    static void twice() {
        tryAll();
        Turns.say("once");
        Turns.await("other");
        tryAll();
    }
    public static void main(String[] words) {
        tryAll();
        Turns.run(FailedExchange::twice, () -> {
            Turns.await("once");
            tryAll();
            Turns.say("other");
        });
        System.out.println("ok");
    }
}
