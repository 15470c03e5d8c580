import java.util.function.IntSupplier;
import java.util.function.Supplier;

// V: a counter that a lambda and a local class have captured, read and written by the one, written by the other
public class CapturedCounter {
    static int take(IntSupplier step) { return step.getAsInt(); }
    public static void main(String[] words) {
        int[] count = {0};
        class Adder implements Supplier<Integer> {
            @Override public Integer get() { return count[0] += 10; }
        }
        Adder adder = new Adder();
        Turns.run(() -> System.out.println(take(() -> {
            int before = count[0];
            Turns.say("read");
            Turns.await("added");
            return count[0] = before + 1;
        })), () -> {
            Turns.await("read");
            adder.get();
            Turns.say("added");
        });
    }
}
