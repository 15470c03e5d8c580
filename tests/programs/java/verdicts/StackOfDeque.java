import java.util.*;
import java.util.concurrent.*;
// S: two threads put the same mark into a stack made of a deque; a third takes the one that was put last, and tells the thread of the first
public class StackOfDeque {
    static final Queue<Integer> stack = Collections.asLifoQueue(new ConcurrentLinkedDeque<>());
    static int taken;
    static int first() {
        stack.add(1);
        Turns.say("first");
        Turns.await("taken");
        return taken;
    }
    static void second() {
        stack.add(1);
    }
    static void take() {
        taken = stack.remove();
    }
    public static void main(String[] x) {
        Turns.run(StackOfDeque::first, () -> {
            Turns.await("first");
            second();
            Turns.say("second");
        }, () -> {
            Turns.await("second");
            take();
            Turns.say("taken");
        });
    }
}
