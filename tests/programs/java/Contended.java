import java.util.concurrent.locks.ReentrantLock;

/** Four threads that fight for a monitor and for a lock: one takes it as soon as another gives it back. */
public class Contended {
    static final ReentrantLock LOCK = new ReentrantLock();
    static int guarded, blocked, locked;

    static synchronized void add() { guarded++; }
    static void addInBlock() {
        synchronized (LOCK) {
            blocked++;
        }
    }
    static void addLocked() {
        LOCK.lock();
        try {
            locked++;
        } finally {
            LOCK.unlock();
        }
    }

    public static void main(String[] words) throws Exception {
        Meet.run(4, me -> {
            Meet.all(4);
            for (int one = 0; one < 1000; one++) {
                add();
                addInBlock();
                addLocked();
            }
        });
        System.out.println(guarded + " " + blocked + " " + locked);
    }
}
