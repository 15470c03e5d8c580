import java.nio.file.Path;
import java.time.LocalDate;
import java.util.*;
import java.util.concurrent.*;
import java.util.concurrent.atomic.*;
import java.util.concurrent.locks.*;

/** The hidden scheduler of generated programs: the agent leaves this class out. */
public class Stage {
    static final boolean marks = System.getenv("STAGE_MARKS") != null;
    private static volatile int current;
    private static final Object monitor = new Object();
    private static final Object[] objects = new Object[4000];
    private static final boolean[] flags = new boolean[4096];
    private static final Thread[] threads = new Thread[64];
    static final long[] stamps = new long[4096];
    /** What is put into a queue several times. */
    static final Object SAME = "same";
    private static volatile long any = 1;

    /** What leaves several blocks at once. */
    static class Left extends RuntimeException {
        Left() { super(null, null, false, false); }
    }

    /** Waits until it is the step's turn, in vain for at most five minutes. */
    static void turn(int step) {
        long begun = System.nanoTime();
        for (int tries = 0; current != step; tries++) {
            if (System.nanoTime() - begun > 300_000_000_000L) end(new Exception("no turn of step " + step));
            if (tries < 50) Thread.yield();
            else try { synchronized (monitor) { if (current != step) monitor.wait(20); } } catch (InterruptedException e) { throw new Error(e); }
        }
    }
    static void done(int step) {
        synchronized (monitor) { current = step + 1; monitor.notifyAll(); }
    }
    static void put(int at, Object it) { synchronized (objects) { objects[at] = it; } }
    static Object at(int at) { synchronized (objects) { return objects[at]; } }
    static void flag(int at) { synchronized (flags) { flags[at] = true; } }
    static boolean flagged(int at) { synchronized (flags) { return flags[at]; } }
    static long any() { return any = any * 3 & 127; }
    static long same(long it) { return it; }
    static String text() { return "t" + any(); }
    static void use(Object it) { }
    static void fail() { throw new IllegalStateException(); }
    static void end(Exception e) {
        e.printStackTrace();
        Runtime.getRuntime().halt(97);
    }
    static void full(Throwable e) {
        if (!(e instanceof StackOverflowError)) throw new Error(e);
    }
    static void interrupt() { Thread.currentThread().interrupt(); }
    static long stamp(StampedLock lock) { return lock.tryOptimisticRead(); }

    /** The thread that calls is that of the number. */
    static void begun(int number) { synchronized (threads) { threads[number] = Thread.currentThread(); } }
    static Thread thread(int number) {
        for (;;) {
            synchronized (threads) { if (threads[number] != null) return threads[number]; }
            Thread.yield();
        }
    }
    /** Waits until the thread is parked. */
    static void parked(int number) {
        while (thread(number).getState() != Thread.State.WAITING) Thread.yield();
    }
    static Thread daemon(Runnable does) {
        Thread made = new Thread(does);
        made.setDaemon(true);
        return made;
    }
    /** In the place of a pool, for a thread without one. */
    static final ExecutorService NO_POOL = Executors.newSingleThreadExecutor();
    /** Uses up a permit that a lock may have left. */
    static void drain() { LockSupport.parkNanos(1); }

    // ---- what is read or changed without an event

    private static Object field(Object it, String name) {
        try {
            java.lang.reflect.Field f = (it instanceof Class ? (Class<?>) it : it.getClass()).getDeclaredField(name);
            f.setAccessible(true);
            return f.get(it);
        } catch (ReflectiveOperationException e) { throw new Error(e); }
    }
    /** The number in a field or an element. */
    static int peek(int at, String field) {
        Object it = at(at);
        return it instanceof long[] ? (int) ((long[]) it)[Integer.parseInt(field)] : ((Number) field(it, field)).intValue();
    }
    static int peekUnsafe(int at) { return at(at) instanceof int[] ? ((int[]) at(at))[1] : peek(at, "f"); }
    static class Synchronizer extends AbstractQueuedSynchronizer {
        int peek() { return getState(); }
    }
    static int state(int at) { return ((Synchronizer) at(at)).peek(); }
    static Object peekField(int at) { return field(at(at), "f"); }
    static long peekAtomic(int at) {
        Object it = at(at);
        if (it instanceof AtomicIntegerArray) return ((AtomicIntegerArray) it).get(2);
        if (it instanceof AtomicLongArray) return ((AtomicLongArray) it).get(2);
        if (it instanceof AtomicBoolean) return ((AtomicBoolean) it).get() ? 1 : 0;
        return ((Number) it).longValue();
    }
    static Object peekReference(int at) {
        Object it = at(at);
        if (it instanceof AtomicReferenceArray) return ((AtomicReferenceArray<?>) it).get(2);
        if (it instanceof AtomicStampedReference) return ((AtomicStampedReference<?>) it).getReference();
        if (it instanceof AtomicMarkableReference) return ((AtomicMarkableReference<?>) it).getReference();
        return ((AtomicReference<?>) it).get();
    }
    static int peekStamp(int at) { return ((AtomicStampedReference<?>) at(at)).getStamp(); }
    static boolean peekMark(int at) { return ((AtomicMarkableReference<?>) at(at)).isMarked(); }

    /** Makes sure that a map or a collection has the key, or hasn't. */
    @SuppressWarnings("unchecked")
    static void with(int at, Object key) {
        // Own.Table has a put of its own, which has events.
        if (at(at) instanceof Map) ((Map<Object, Object>) at(at)).compute(key, (q, s) -> 0);
        else ((Collection<Object>) at(at)).add(key);
    }
    static void without(int at, Object key) {
        if (at(at) instanceof Map) ((Map<?, ?>) at(at)).remove(key);
        else ((Collection<?>) at(at)).remove(key);
    }

    private static class Same {
        @Override public int hashCode() { return 1; }
        @Override public boolean equals(Object other) { return other == this; }
    }
    private record Pair(int a, String b) { }
    private static final Map<String, Object[]> KEYS = Map.of(
            "text", new Object[] {"a", "b"}, "number", new Object[] {5, 6}, "long", new Object[] {7L, 8L},
            "uuid", new Object[] {new UUID(1, 2), new UUID(3, 4)}, "enum", new Object[] {TimeUnit.DAYS, TimeUnit.HOURS},
            "time", new Object[] {LocalDate.of(2020, 1, 2), LocalDate.of(2020, 1, 3)}, "path", new Object[] {Path.of("a"), Path.of("b")},
            "record", new Object[] {new Pair(1, "a"), new Pair(2, "a")}, "same", new Object[] {new Same(), new Same()},
            "object", new Object[] {new Object(), new Object()});

    /** One of two keys of a kind. */
    static Object key(String kind, int number) { return KEYS.get(kind)[number]; }

    /** A future that its methods complete. */
    static class Task extends FutureTask<Object> {
        Task() { super(() -> 1); }
        void complete(Object value) { set(value); }
    }

    // ---- classes of several loaders

    public interface Cell {
        void store(int value);
        int load();
        void storeOwn(int value);
        int loadOwn();
    }
    /** The class as a loader of its own has it. */
    static Class<?> loaded(String name, int number) {
        ClassLoader own = new ClassLoader(Stage.class.getClassLoader()) {
            @Override protected Class<?> loadClass(String wanted, boolean resolve) throws ClassNotFoundException {
                if (!wanted.equals(name)) return super.loadClass(wanted, resolve);
                try (var file = getResourceAsStream(name + ".class")) {
                    byte[] bytes = file.readAllBytes();
                    Class<?> known = findLoadedClass(name);
                    return known != null ? known : defineClass(name, bytes, 0, bytes.length);
                } catch (java.io.IOException e) { throw new ClassNotFoundException(name, e); }
            }
        };
        try {
            return Class.forName(name, true, own);
        } catch (ReflectiveOperationException e) { throw new Error(e); }
    }
    static Object made(Class<?> of) {
        try {
            return of.getDeclaredConstructor().newInstance();
        } catch (ReflectiveOperationException e) { throw new Error(e); }
    }
}
