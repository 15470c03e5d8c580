import java.lang.invoke.MethodHandles;
import java.lang.invoke.VarHandle;
import java.util.concurrent.atomic.AtomicInteger;
import java.util.concurrent.atomic.AtomicIntegerArray;
import java.util.concurrent.atomic.AtomicIntegerFieldUpdater;

/**
 * Threads that race by fields, elements, atomics, handles and updaters, and write values that are written once each. At the end
 * it prints what each thread did: the kind of variable, r or w, and the value.
 */
public class Order {
    static final VarHandle HANDLE;
    static final AtomicIntegerFieldUpdater<Order> UPDATER = AtomicIntegerFieldUpdater.newUpdater(Order.class, "updated");
    static {
        try {
            HANDLE = MethodHandles.lookup().findVarHandle(Order.class, "handled", int.class);
        } catch (ReflectiveOperationException wrong) {
            throw new AssertionError(wrong);
        }
    }
    static final int THREADS = 32;

    static int shared;
    int plain, handled;
    volatile int flagged, updated;
    long wide;
    final int[] array = new int[1];
    final AtomicInteger atomic = new AtomicInteger();
    final AtomicIntegerArray atomics = new AtomicIntegerArray(1);

    int read(int kind) {
        switch (kind) {
            case 0: return plain;
            case 1: return flagged;
            case 2: return (int) wide;
            case 3: return shared;
            case 4: return array[0];
            case 5: return atomic.get();
            case 6: return atomics.get(0);
            case 7: return (int) HANDLE.getVolatile(this);
            default: return updated;
        }
    }
    void write(int kind, int value) {
        switch (kind) {
            case 0: plain = value; break;
            case 1: flagged = value; break;
            case 2: wide = value; break;
            case 3: shared = value; break;
            case 4: array[0] = value; break;
            case 5: atomic.set(value); break;
            case 6: atomics.set(0, value); break;
            case 7: HANDLE.setVolatile(this, value); break;
            default: UPDATER.set(this, value);
        }
    }

    /** Order STEPS KINDS: each thread makes so many accesses of variables of these kinds, which are digits. */
    public static void main(String[] words) throws Exception {
        int steps = Integer.parseInt(words[0]);
        int[] kinds = words[1].chars().map(one -> one - '0').toArray();
        Order it = new Order();
        Record[] did = new Record[THREADS];
        Meet.run(THREADS, me -> {
            Record mine = did[me] = new Record(steps, me);
            Meet.all(THREADS);
            for (int step = 0; step < steps; step++) {
                int kind = mine.pick(kinds);
                int value = step * THREADS + me + 1;
                boolean isWrite = mine.next(2) == 0;
                if (isWrite) it.write(kind, value);
                else value = it.read(kind);
                mine.add(kind, isWrite, value);
            }
        });
        for (int me = 0; me < THREADS; me++) {
            System.out.println("T" + (me + 2));
            did[me].print();
        }
    }
}
