import java.util.concurrent.atomic.AtomicStampedReference;

// V: a method looks at a stamped reference, and sets it without a look at the stamp; another thread has set it twice, back to the same
public class StampIgnored {
    static final AtomicStampedReference<String> TOP = new AtomicStampedReference<>("a", 0);

    static void push() {
        String seen = TOP.getReference();
        Turns.say("seen");
        Turns.await("back");
        TOP.set(seen + "b", 3);
    }
    static void away() { TOP.set("c", 1); }
    static void back() { TOP.set("a", 2); }
    public static void main(String[] words) {
        Turns.run(StampIgnored::push, () -> {
            Turns.await("seen");
            away();
            back();
            Turns.say("back");
        });
    }
}
