import java.util.concurrent.*;
// S: two threads, each with its own session (identity equality, a hashCode of its own), as H2 does
public class KeysOfSessions {
    static class Session {
        final int id;
        Session(int i) {
            id = i;
        }
        public int hashCode() {
            return id;
        }
    }
    static final ConcurrentHashMap<Session, Integer> locks = new ConcurrentHashMap<>();
    static void use(Session s, String m, String o) {
        locks.put(s, 1);
        Turns.say(m);
        Turns.await(o);
        locks.remove(s);
    }
    public static void main(String[] a) {
        Turns.run(() -> use(new Session(1), "a", "b"), () -> use(new Session(2), "b", "a"));
        System.out.println(locks.size());
    }
}
