import java.util.concurrent.atomic.AtomicIntegerFieldUpdater;
import java.util.concurrent.atomic.AtomicMarkableReference;
import java.util.concurrent.atomic.AtomicStampedReference;

// S: stamps and marks that aren't what was wanted are only read
public class StampsThatFail {
    static final AtomicStampedReference<String> stamped = new AtomicStampedReference<>("a", 1);
    static final AtomicMarkableReference<String> marked = new AtomicMarkableReference<>("b", true);
    volatile int field = 3;
    static final AtomicIntegerFieldUpdater<StampsThatFail> FIELD =
            AtomicIntegerFieldUpdater.newUpdater(StampsThatFail.class, "field");
    static final StampsThatFail it = new StampsThatFail();
    static boolean tryAll() {
        return stamped.compareAndSet("a", "c", 5, 6) | stamped.attemptStamp("x", 2) | marked.compareAndSet("b", "d", false, true)
                | marked.attemptMark("y", false) | FIELD.compareAndSet(it, 1, 2) | FIELD.weakCompareAndSet(it, 4, 5);
    }
    static boolean twice() {
        boolean any = tryAll();
        Turns.say("once");
        Turns.await("other");
        return any | tryAll();
    }
    public static void main(String[] words) {
        Turns.run(StampsThatFail::twice, () -> {
            Turns.await("once");
            tryAll();
            Turns.say("other");
        });
        System.out.println("ok");
    }
}
