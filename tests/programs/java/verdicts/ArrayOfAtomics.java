import java.util.concurrent.atomic.AtomicIntegerArray;

// S: each thread counts at places of its own of an atomic array, and reads them twice
public class ArrayOfAtomics {
    static final AtomicIntegerArray COUNTS = new AtomicIntegerArray(4);
    static int count(int me) {
        int before = COUNTS.incrementAndGet(me);
        Turns.say("counted " + me);
        Turns.await("counted " + (1 - me));
        return COUNTS.addAndGet(me, 2) - before + COUNTS.get(me + 2);
    }
    public static void main(String[] words) {
        Turns.run(() -> System.out.println(count(0)), () -> System.out.println(count(1)));
    }
}
