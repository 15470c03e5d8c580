import java.util.Deque;
import java.util.concurrent.ConcurrentLinkedDeque;

// V: another thread pushes an object onto a stack between a look at the top and a pop
public class PushedBetween {
    private final Deque<Object> stack = new ConcurrentLinkedDeque<>();

    boolean popTop() {
        Object top = stack.peek();
        Meet.both();
        Meet.both();
        return stack.pop() == top;
    }
    void push() { stack.push("b"); }

    public static void main(String[] words) throws Exception {
        PushedBetween it = new PushedBetween();
        it.stack.push("a");
        Meet.run(2, me -> {
            if (me == 0) it.popTop();
            else {
                Meet.both();
                it.push();
                Meet.both();
            }
        });
    }
}
