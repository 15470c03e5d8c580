import java.util.concurrent.LinkedBlockingDeque;

// V: takes from the end of a deque the object that the other block has put there, though a third thread had put the same before
public class SameAtThisEnd {
    static final LinkedBlockingDeque<Boolean> tokens = new LinkedBlockingDeque<>();
    static volatile int told;
    static int put() {
        tokens.add(true);
        Turns.say("put");
        Turns.await("taken");
        return told;
    }
    public static void main(String[] words) {
        tokens.add(true);
        Turns.run(SameAtThisEnd::put, () -> {
            Turns.await("put");
            tokens.pollLast();
            told = 1;
            Turns.say("taken");
        });
    }
}
