import java.util.concurrent.atomic.AtomicIntegerFieldUpdater;

// V: a field that an updater changes by a function between two plain reads
public class UpdatedTwice {
    private static final AtomicIntegerFieldUpdater<UpdatedTwice> COUNT =
            AtomicIntegerFieldUpdater.newUpdater(UpdatedTwice.class, "count");
    private volatile int count;

    boolean isSame() {
        int first = count;
        Meet.both();
        Meet.both();
        return first == count;
    }
    void update() { COUNT.updateAndGet(this, value -> value + 1); }

    public static void main(String[] words) throws Exception {
        UpdatedTwice it = new UpdatedTwice();
        Meet.run(2, me -> {
            if (me == 0) it.isSame();
            else {
                Meet.both();
                it.update();
                Meet.both();
            }
        });
    }
}
