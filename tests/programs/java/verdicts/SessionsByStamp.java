import java.util.HashMap;
import java.util.Map;
import java.util.concurrent.locks.StampedLock;

// V: the uses of a session are read optimistically and validated, and written later under the lock; blames SessionsByStamp.touch
public class SessionsByStamp {
    private final StampedLock lock = new StampedLock();
    private final Map<String, Integer> uses = new HashMap<>();

    private int usesOf(String id) {
        long stamp = lock.tryOptimisticRead();
        Integer number = uses.get(id);
        if (!lock.validate(stamp)) {
            stamp = lock.readLock();
            try {
                number = uses.get(id);
            } finally {
                lock.unlockRead(stamp);
            }
        }
        return number == null ? 0 : number;
    }

    private void store(String id, int number) {
        long stamp = lock.writeLock();
        try {
            uses.put(id, number);
        } finally {
            lock.unlockWrite(stamp);
        }
    }

    void touch(String id, Runnable between) {
        int number = usesOf(id);
        between.run();
        store(id, number + 1);
    }

    public static void main(String[] words) {
        SessionsByStamp sessions = new SessionsByStamp();
        Turns.run(() -> sessions.touch("a7", () -> {
            Turns.say("read");
            Turns.await("stored");
        }), () -> {
            Turns.await("read");
            sessions.touch("a7", () -> { });
            Turns.say("stored");
        });
        System.out.println(sessions.uses);
    }
}
