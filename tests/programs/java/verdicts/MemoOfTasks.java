import java.util.concurrent.ConcurrentHashMap;
import java.util.concurrent.ConcurrentMap;
import java.util.concurrent.ExecutionException;
import java.util.concurrent.FutureTask;

// S: one thread puts a task into a map and runs it, and another one finds it and waits for its result: all orders go one way
public class MemoOfTasks {
    private static final ConcurrentMap<String, FutureTask<Integer>> memo = new ConcurrentHashMap<>();
    private static int computed;

    static int lengthOf(String word) {
        FutureTask<Integer> mine = new FutureTask<>(() -> {
            Turns.say("computes");
            Turns.await("found");
            computed++;
            return word.length();
        });
        FutureTask<Integer> other = memo.putIfAbsent(word, mine);
        if (other == null) {
            mine.run();
            other = mine;
        } else {
            Turns.say("found");
        }
        try {
            return other.get();
        } catch (InterruptedException | ExecutionException wrong) {
            throw new IllegalStateException(wrong);
        }
    }

    public static void main(String[] words) {
        Turns.run(() -> lengthOf("memo"), () -> {
            Turns.await("computes");
            lengthOf("memo");
        });
        System.out.println(computed);
    }
}
