import java.util.concurrent.atomic.AtomicBoolean;

// V: a lock of one's own spins on an atomic flag, so the look in vain lies within the other's block; blames SpinsForLock.add
public class SpinsForLock {
    private final AtomicBoolean held = new AtomicBoolean();
    private int sum;

    private void lock() {
        while (!held.compareAndSet(false, true)) {
            Turns.say("in vain");
            Thread.onSpinWait();
        }
    }

    void add(int number, Runnable within) {
        lock();
        try {
            sum += number;
            within.run();
        } finally {
            held.set(false);
        }
    }

    public static void main(String[] words) {
        SpinsForLock it = new SpinsForLock();
        Turns.run(() -> it.add(1, () -> {
            Turns.say("held");
            Turns.await("in vain");
        }), () -> {
            Turns.await("held");
            it.add(2, () -> { });
        });
        System.out.println(it.sum);
    }
}
