import java.util.concurrent.atomic.AtomicIntegerArray;

// S: two threads count elements of their own in an AtomicIntegerArray while they overlap
public class Elements {
    private final AtomicIntegerArray all = new AtomicIntegerArray(2);

    void twice(int me) {
        all.incrementAndGet(me);
        Meet.both();
        all.incrementAndGet(me);
    }

    public static void main(String[] words) throws Exception {
        Elements it = new Elements();
        Meet.run(2, it::twice);
    }
}
