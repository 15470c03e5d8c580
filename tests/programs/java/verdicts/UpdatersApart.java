import java.util.concurrent.atomic.AtomicIntegerArray;
import java.util.concurrent.atomic.AtomicIntegerFieldUpdater;

// S: two threads update, by functions, fields of two objects by one updater, and two elements of one array
public class UpdatersApart {
    private static final AtomicIntegerFieldUpdater<UpdatersApart> COUNT =
            AtomicIntegerFieldUpdater.newUpdater(UpdatersApart.class, "count");
    private static final AtomicIntegerArray ELEMENTS = new AtomicIntegerArray(2);
    private volatile int count;

    void twice(int me) {
        COUNT.updateAndGet(this, value -> value + 1);
        ELEMENTS.getAndUpdate(me, value -> value + 1);
        Meet.both();
        COUNT.accumulateAndGet(this, 2, Integer::sum);
        ELEMENTS.getAndAccumulate(me, 2, Integer::sum);
    }

    public static void main(String[] words) throws Exception {
        Meet.run(2, me -> new UpdatersApart().twice(me));
    }
}
