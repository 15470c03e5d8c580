import java.lang.invoke.MethodHandles;
import java.lang.invoke.VarHandle;
import java.util.concurrent.atomic.AtomicIntegerArray;
import java.util.concurrent.atomic.AtomicIntegerFieldUpdater;

/** Accesses that fail. Behind each the thread does nothing that is logged until another has accessed a field. */
public class Failing {
    static final VarHandle ELEMENT = MethodHandles.arrayElementVarHandle(int[].class);
    static final AtomicIntegerFieldUpdater<Failing> UPDATER = AtomicIntegerFieldUpdater.newUpdater(Failing.class, "updated");

    volatile int updated;
    static int shared;
    static final int ROUNDS = 7;

    static Failing none() { return null; }
    static int[] array() { return new int[1]; }

    static void access(int round) {
        switch (round) {
            case 1: new AtomicIntegerArray(1).get(17); break;
            case 2: ELEMENT.set(new int[1], 17, 1); break;
            case 3: ((Object[]) new Integer[1])[0] = "no number"; break;
            case 4: System.arraycopy(new int[1], 0, new long[1], 0, 1); break;
            case 5: UPDATER.set(none(), 1); break;
            case 6: none().updated = 1; break;
            default: array()[17]++;
        }
    }

    public static void main(String[] words) throws Exception {
        Thread other = new Thread(() -> {
            for (int round = 1; round <= ROUNDS; round++) {
                Meet.untilTurn(round);
                shared = round;
                Meet.answer(round);
            }
        });
        other.setDaemon(true);
        other.start();
        for (int round = 1; round <= ROUNDS; round++) {
            String thrown = "nothing";
            try {
                access(round);
            } catch (RuntimeException wanted) {
                thrown = wanted.getClass().getSimpleName();
            }
            Meet.turn(round);
            boolean isAnswered = Meet.isAnswered(round);
            System.out.println(thrown + (isAnswered ? "" : ", and the other thread is kept waiting"));
            if (!isAnswered) Runtime.getRuntime().halt(1);
        }
    }
}
