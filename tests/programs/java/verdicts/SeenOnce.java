import java.util.Set;
import java.util.concurrent.ConcurrentHashMap;
import java.util.concurrent.atomic.AtomicLong;

// V: a message is added before and counted after another thread, which found it in the set, counts a second one; blames SeenOnce.receive
public class SeenOnce {
    private static final Set<String> seen = ConcurrentHashMap.newKeySet();
    private static final AtomicLong bytes = new AtomicLong();

    static boolean receive(String message, Runnable between) {
        if (!seen.add(message)) return false;
        between.run();
        bytes.addAndGet(message.length());
        return true;
    }

    public static void main(String[] words) {
        Turns.run(() -> receive("hello", () -> {
            Turns.say("added");
            Turns.await("received");
        }), () -> {
            Turns.await("added");
            receive("hello", () -> { });
            receive("good bye", () -> { });
            Turns.say("received");
        });
        System.out.println(bytes);
    }
}
