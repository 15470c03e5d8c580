import java.util.concurrent.atomic.AtomicInteger;
import java.util.concurrent.atomic.AtomicReference;

// S: an update whose function throws, between two looks, changes nothing
public class UpdateThatThrows {
    private final AtomicInteger number = new AtomicInteger();
    private final AtomicReference<String> text = new AtomicReference<>("a");

    boolean lookTwice() {
        int before = number.get();
        String read = text.get();
        Meet.both();
        Meet.both();
        return number.get() == before && text.get() == read;
    }
    void update() {
        try {
            number.updateAndGet(value -> 1 / value);
        } catch (ArithmeticException wanted) {
            // The number is 0.
        }
        try {
            text.accumulateAndGet(null, (one, two) -> two.concat(one));
        } catch (NullPointerException wanted) {
            // There is no second text.
        }
    }

    public static void main(String[] words) throws Exception {
        UpdateThatThrows it = new UpdateThatThrows();
        Meet.run(2, me -> {
            if (me == 0) it.lookTwice();
            else {
                Meet.both();
                it.update();
                Meet.both();
            }
        });
    }
}
