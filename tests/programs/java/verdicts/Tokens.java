import java.util.*;
import java.util.concurrent.*;
// S: one token object as a permit of two goes round a queue: two users overlap and share nothing else
public class Tokens {
    static final BlockingQueue<Object> q = new ArrayBlockingQueue<>(4);
    static final Object TOKEN = new Object();
    static void one(String m, String o) {
        try {
            Object t = q.take();
            Turns.say(m);
            Turns.await(o);
            q.put(t);
        } catch (InterruptedException e) { }
    }
    public static void main(String[] a) {
        q.add(TOKEN);
        q.add(TOKEN);
        Turns.run(() -> one("a", "b"), () -> one("b", "a"));
        System.out.println(q.size());
    }
}
