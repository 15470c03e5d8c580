import java.lang.invoke.MethodHandles;
import java.lang.invoke.VarHandle;
import java.util.AbstractList;
import java.util.ArrayList;
import java.util.HashMap;
import java.util.List;
import java.util.Map;
import java.util.concurrent.locks.AbstractQueuedSynchronizer;
import java.util.concurrent.locks.ReentrantLock;
import java.util.function.BiConsumer;
import java.util.function.Function;

/** VarHandles, a synchronizer of the program's own, references to methods, classes that extend collections. */
public class Handles {
    static final VarHandle FIELD, SHARED, ELEMENT;
    static {
        try {
            MethodHandles.Lookup lookup = MethodHandles.lookup();
            FIELD = lookup.findVarHandle(Handles.class, "field", int.class);
            SHARED = lookup.findStaticVarHandle(Handles.class, "shared", int.class);
            ELEMENT = MethodHandles.arrayElementVarHandle(long[].class);
        } catch (ReflectiveOperationException wrong) {
            throw new AssertionError(wrong);
        }
    }

    static class Mutex extends AbstractQueuedSynchronizer {
        int guarded;

        @Override protected boolean tryAcquire(int permits) { return compareAndSetState(0, 1); }
        @Override protected boolean tryRelease(int permits) {
            setState(0);
            return true;
        }
        /** It tries to acquire several times, so that it is no atomic block; what it guards is one. */
        void enter() {
            acquire(1);
            try {
                add();
            } finally {
                release(1);
            }
        }
        void add() { guarded++; }
        boolean isHeld() { return getState() == 1; }
    }
    static class Counting extends HashMap<String, Integer> {
        int puts;

        @Override public Integer put(String key, Integer value) {
            puts++;
            return super.put(key, value);
        }
    }
    static class Own extends AbstractList<Integer> {
        final int[] values = {1, 2, 3};

        @Override public Integer get(int index) { return values[index]; }
        @Override public int size() { return values.length; }
    }

    static int shared;
    int field;
    final long[] array = new long[4];
    final Mutex mutex = new Mutex();
    final ReentrantLock lock = new ReentrantLock();
    final Runnable in = lock::lock, out = lock::unlock;
    final Map<String, Integer> map = new Counting();

    void add() { FIELD.getAndAdd(this, 1); }
    void addToShared() { SHARED.getAndAdd(2); }
    void store() { ELEMENT.setRelease(array, 1, 5L); }
    long load() { return (long) ELEMENT.getAcquire(array, 1); }
    int plain() { return field; }
    void addApart() {
        int before = (int) FIELD.getAcquire(this);
        Meet.both();
        FIELD.setRelease(this, before + 1);
    }
    /** The map is guarded by references to the lock's methods alone. */
    void putGuarded(String key) {
        in.run();
        try {
            map.put(key, map.size());
        } finally {
            out.run();
        }
    }

    public static void main(String[] words) throws Exception {
        Handles it = new Handles();
        Meet.run(2, me -> {
            for (int one = 0; one < 6; one++) {
                if (!words[0].equals("atomic")) it.addApart();
                else {
                    it.add();
                    it.addToShared();
                    it.store();
                    it.load();
                    it.plain();
                    it.mutex.enter();
                    it.putGuarded("k" + one);
                }
            }
        });
        try {
            int nothing = (int) FIELD.get((Handles) null);
        } catch (NullPointerException wrong) {
            System.out.print("null, ");
        }
        try {
            ELEMENT.set(it.array, 9, 1L);
        } catch (IndexOutOfBoundsException wrong) {
            System.out.print("no such element, ");
        }
        Function<Map<String, Integer>, Integer> size = Map::size;
        BiConsumer<List<Integer>, Integer> add = List::add;
        List<Integer> list = new ArrayList<>();
        add.accept(list, 3);
        System.out.println(it.field + " " + shared + " " + it.mutex.guarded + it.mutex.isHeld() + size.apply(it.map)
                + ((Counting) it.map).puts + list + new Own().contains(3) + new Own().get(1));
    }
}
