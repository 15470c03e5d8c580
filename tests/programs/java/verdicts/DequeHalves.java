import java.util.ArrayDeque;
import java.util.Deque;

// V: a synchronized deque is asked for its last and loses it under the next monitor, which another thread had in between
public class DequeHalves {
    static final Deque<String> STACK = new ArrayDeque<>();
    static synchronized String top() { return STACK.peekLast(); }
    static synchronized void drop() { STACK.pollLast(); }
    static synchronized void push(String one) { STACK.addLast(one); }
    static String pop() {
        String top = top();
        Turns.say("seen");
        Turns.await("pushed");
        drop();
        return top;
    }
    public static void main(String[] words) {
        push("a");
        Turns.run(() -> System.out.println(pop()), () -> {
            Turns.await("seen");
            push("b");
            Turns.say("pushed");
        });
        System.out.println(STACK);
    }
}
