import java.util.concurrent.atomic.AtomicMarkableReference;
import java.util.concurrent.atomic.AtomicStampedReference;

// V: a reference with a stamp is read and set by one method, and another thread sets it in between
public class StampedPair {
    static final AtomicStampedReference<String> NAME = new AtomicStampedReference<>("a", 0);
    static final AtomicMarkableReference<String> MARKED = new AtomicMarkableReference<>("a", false);
    static void rename(String name, boolean first) {
        int[] stamp = new int[1];
        NAME.get(stamp);
        if (first) {
            Turns.say("read");
            Turns.await("renamed");
        }
        NAME.set(name, stamp[0] + 1);
        MARKED.attemptMark("a", true);
    }
    public static void main(String[] words) {
        Turns.run(() -> rename("b", true), () -> {
            Turns.await("read");
            rename("c", false);
            Turns.say("renamed");
        });
        System.out.println(NAME.getReference() + NAME.getStamp() + MARKED.isMarked());
    }
}
