import java.util.ArrayList;
import java.util.List;

// S: each thread has a list of its own by a ThreadLocal, and two threads take turns at theirs
public class OwnsPerThread {
    static final ThreadLocal<List<String>> MINE = ThreadLocal.withInitial(ArrayList::new);

    static void first() {
        MINE.get().add("a");
        Turns.say("one");
        Turns.await("two");
        MINE.get().add("b");
    }
    static void second() {
        Turns.await("one");
        MINE.get().add("c");
        MINE.get().add("d");
        Turns.say("two");
    }
    public static void main(String[] words) {
        Turns.run(OwnsPerThread::first, OwnsPerThread::second);
    }
}
