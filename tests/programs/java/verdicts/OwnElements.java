import java.util.concurrent.atomic.*;
// S: two threads, each with an element of its own of an array whose class extends AtomicIntegerArray
public class OwnElements extends AtomicIntegerArray {
    static final AtomicIntegerArray all = new OwnElements();
    OwnElements() { super(2); }
    static void twice() {
        all.incrementAndGet(0);
        Turns.say("one");
        Turns.await("other");
        all.incrementAndGet(0);
    }
    static void other() {
        all.incrementAndGet(1);
    }
    public static void main(String[] x) {
        Turns.run(OwnElements::twice, () -> {
            Turns.await("one");
            other();
            Turns.say("other");
        });
    }
}
