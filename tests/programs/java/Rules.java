import java.lang.invoke.MethodHandles;
import java.lang.invoke.VarHandle;
import java.lang.reflect.Field;
import java.util.ArrayDeque;
import java.util.ArrayList;
import java.util.Collections;
import java.util.HashMap;
import java.util.HashSet;
import java.util.Iterator;
import java.util.List;
import java.util.Map;
import java.util.Queue;
import java.util.Set;
import java.util.UUID;
import java.util.concurrent.ArrayBlockingQueue;
import java.util.concurrent.BlockingQueue;
import java.util.concurrent.ConcurrentHashMap;
import java.util.concurrent.ConcurrentMap;
import java.util.concurrent.CopyOnWriteArrayList;
import java.util.concurrent.CountDownLatch;
import java.util.concurrent.CyclicBarrier;
import java.util.concurrent.Exchanger;
import java.util.concurrent.Phaser;
import java.util.concurrent.Semaphore;
import java.util.concurrent.TimeUnit;
import java.util.concurrent.TimeoutException;
import java.util.concurrent.atomic.AtomicInteger;
import java.util.concurrent.atomic.AtomicIntegerFieldUpdater;
import java.util.concurrent.atomic.AtomicLong;
import java.util.concurrent.atomic.AtomicLongArray;
import java.util.concurrent.atomic.AtomicReference;
import java.util.concurrent.atomic.LongAdder;
import java.util.concurrent.locks.AbstractQueuedLongSynchronizer;
import java.util.concurrent.locks.AbstractQueuedSynchronizer;
import java.util.concurrent.locks.Condition;
import java.util.concurrent.locks.LockSupport;
import java.util.concurrent.locks.ReentrantLock;
import java.util.concurrent.locks.ReentrantReadWriteLock;
import java.util.concurrent.locks.StampedLock;
import java.util.function.Function;
import sun.misc.Unsafe;

/**
 * What becomes what: behind `//:` stand the events of each line, in their order. There @ stands for an object's number, # for
 * that of a key, an item, a permit or a thread.
 */
public class Rules {
    static final int FIXED = Integer.parseInt("3");
    static int total = 1;
    static volatile long wideTotal;
    int plain, count;
    volatile int flagged;
    double wide;
    Object object;
    final int fixed;

    Rules() {
        plain = 1; //: w(Rules.plain@)
        fixed = 2;
    }

    static class Below extends Rules {
        int own;
    }
    static class Copied implements Cloneable {
        int value;

        Copied copy() throws CloneNotSupportedException { return (Copied) clone(); }
    }
    enum Color { RED }
    /** A key whose equality is its own. */
    static class Key {
        @Override public int hashCode() { return 5; }
        @Override public boolean equals(Object other) { return other instanceof Key; }
    }

    static void fields() throws CloneNotSupportedException {
        Rules it = new Rules();
        it.plain = 4; //: w(Rules.plain@)
        it.wide = it.plain + it.flagged; //: r(Rules.plain@) r(Rules.flagged@) w(Rules.wide@)
        it.plain++; //: r(Rules.plain@) w(Rules.plain@)
        it.object = it; //: w(Rules.object@)
        total = it.fixed + FIXED; //: w(Rules.total)
        wideTotal += total; //: r(Rules.wideTotal) r(Rules.total) w(Rules.wideTotal)
        Below below = new Below();
        below.plain = 5; //: w(Rules.plain@)
        below.own = 6; //: w(Rules$Below.own@)
        Copied first = new Copied();
        first.value = 1; //: w(Rules$Copied.value@)
        first.copy().value = 2; //: w(Rules$Copied.value@)
    }

    static void arrays() {
        int[] ints = {1, 2}; //: w(int[]@[0]) w(int[]@[1])
        ints[1] = ints[0]; //: r(int[]@[0]) w(int[]@[1])
        long[][] longs = new long[2][1];
        longs[1][0]++; //: r(long[][]@[1]) r(long[]@[0]) w(long[]@[0])
        Object[] objects = new Object[1];
        objects[0] = ints; //: w(Object[]@[0])
        System.arraycopy(ints, 0, ints, 1, 1); //: r(int[]@[0]) w(int[]@[1])
        int[] copied = ints.clone(); //: r(int[]@[0]) r(int[]@[1])
        copied[0] = 1; //: w(int[]@[0])
    }

    synchronized int guarded() {
        count++; //: acq(Rules@) r(Rules.count@) w(Rules.count@)
        return 1; //: rel(Rules@)
    }
    static synchronized void guardedStatic() {
        total++; //: acq(Rules.class) r(Rules.total) w(Rules.total)
    } //: rel(Rules.class)
    synchronized void fails() {
        throw new IllegalStateException(); //: acq(Rules@) rel(Rules@)
    }

    static void monitors() throws InterruptedException {
        Rules it = new Rules();
        synchronized (it) { //: acq(Rules@)
            synchronized (it) { //: acq(Rules@)
                it.wait(1); //: rel(Rules@) rel(Rules@) acq(Rules@) acq(Rules@)
            } //: rel(Rules@)
        } //: rel(Rules@)
        synchronized (it) { //: acq(Rules@)
            Thread.currentThread().interrupt();
            try {
                it.wait(); //: rel(Rules@) acq(Rules@)
            } catch (InterruptedException wanted) {
                it.count = 2; //: w(Rules.count@)
            }
        } //: rel(Rules@)
        it.guarded();
        guardedStatic();
        try {
            it.fails();
        } catch (IllegalStateException wanted) {
            it.count = 0; //: w(Rules.count@)
        }
        try {
            it.wait();
        } catch (IllegalMonitorStateException wanted) {
            it.count = 1; //: w(Rules.count@)
        }
    }

    static class Own extends ReentrantLock {
        void enter() { super.lock(); } //: acq(ReentrantLock$NonfairSync@)
        @Override public void lock() { super.lock(); } //: acq(ReentrantLock$NonfairSync@)
        void leave() { unlock(); } //: rel(ReentrantLock$NonfairSync@)
        @Override public void unlock() { super.unlock(); }
    }
    static class Words extends ArrayList<String> {
        void addTwice(String word) {
            add(word); //: w(Rules$Words@)
            super.add(word); //: w(Rules$Words@)
        }
    }

    static void locks() throws InterruptedException {
        ReentrantLock lock = new ReentrantLock();
        lock.lock(); //: acq(ReentrantLock$NonfairSync@)
        if (!lock.tryLock()) return; //: acq(ReentrantLock$NonfairSync@)
        Condition condition = lock.newCondition();
        condition.awaitNanos(1); //: rel(ReentrantLock$NonfairSync@) rel(ReentrantLock$NonfairSync@) acq(ReentrantLock$NonfairSync@) acq(ReentrantLock$NonfairSync@)
        Thread.currentThread().interrupt();
        try {
            condition.await(); //: rel(ReentrantLock$NonfairSync@) rel(ReentrantLock$NonfairSync@) acq(ReentrantLock$NonfairSync@) acq(ReentrantLock$NonfairSync@)
        } catch (InterruptedException wanted) {
            lock.unlock(); //: rel(ReentrantLock$NonfairSync@)
        }
        lock.unlock(); //: rel(ReentrantLock$NonfairSync@)
        Own own = new Own();
        own.enter();
        own.lock();
        own.leave();
        own.leave();
        ReentrantReadWriteLock both = new ReentrantReadWriteLock();
        both.readLock().lock(); //: r(rw.ReentrantReadWriteLock$NonfairSync@)
        if (both.writeLock().tryLock()) return;
        both.readLock().unlock(); //: r(rw.ReentrantReadWriteLock$NonfairSync@)
        both.writeLock().lock(); //: w(rw.ReentrantReadWriteLock$NonfairSync@)
        both.writeLock().newCondition().awaitNanos(1); //: w(rw.ReentrantReadWriteLock$NonfairSync@) w(rw.ReentrantReadWriteLock$NonfairSync@)
        both.writeLock().unlock(); //: w(rw.ReentrantReadWriteLock$NonfairSync@)
        StampedLock stamped = new StampedLock();
        long stamp = stamped.writeLock(); //: w(StampedLock@)
        stamped.unlockWrite(stamp); //: w(StampedLock@)
        stamp = stamped.tryOptimisticRead(); //: r(StampedLock@)
        stamped.validate(stamp); //: r(StampedLock@)
        stamp = stamped.tryConvertToReadLock(stamp); //: r(StampedLock@)
        if (stamped.tryWriteLock() != 0) return;
        stamped.unlock(stamp); //: r(StampedLock@)
        stamped.asWriteLock().lock(); //: w(StampedLock@)
        if (stamped.validate(stamp)) return;
        stamped.asWriteLock().unlock(); //: w(StampedLock@)
        stamped.asReadLock().lock(); //: r(StampedLock@)
    }

    static final AtomicIntegerFieldUpdater<Rules> FLAGGED = AtomicIntegerFieldUpdater.newUpdater(Rules.class, "flagged");

    static void atomics() {
        AtomicInteger number = new AtomicInteger();
        number.get(); //: r(AtomicInteger@)
        number.set(1); //: w(AtomicInteger@)
        number.getAndAdd(2); //: w(AtomicInteger@)
        number.compareAndSet(3, 4); //: w(AtomicInteger@)
        number.compareAndSet(3, 5); //: r(AtomicInteger@)
        number.updateAndGet(value -> value + total); //: r(Rules.total) w(AtomicInteger@)
        AtomicLongArray numbers = new AtomicLongArray(2);
        numbers.incrementAndGet(1); //: w(AtomicLongArray@[1])
        AtomicReference<String> text = new AtomicReference<>("a");
        text.compareAndSet("a", "b"); //: w(AtomicReference@)
        Rules it = new Rules();
        FLAGGED.incrementAndGet(it); //: w(Rules.flagged@)
        FLAGGED.get(it); //: r(Rules.flagged@)
        LongAdder adder = new LongAdder();
        adder.increment(); //: w(LongAdder@.all#)
        adder.sum(); //: r(LongAdder@.all#) w(LongAdder@.look#)
        adder.increment(); //: r(LongAdder@.look#) w(LongAdder@.all#)
        Function<AtomicInteger, Integer> get = AtomicInteger::get; //: r(AtomicInteger@)
        get.apply(number);
    }

    static final VarHandle PLAIN, TOTAL, ELEMENT;
    static final Unsafe UNSAFE;
    static final long OFFSET;
    static {
        try {
            PLAIN = MethodHandles.lookup().findVarHandle(Rules.class, "plain", int.class);
            TOTAL = MethodHandles.lookup().findStaticVarHandle(Rules.class, "total", int.class);
            ELEMENT = MethodHandles.arrayElementVarHandle(int[].class);
            Field unsafe = Unsafe.class.getDeclaredField("theUnsafe");
            unsafe.setAccessible(true);
            UNSAFE = (Unsafe) unsafe.get(null);
            OFFSET = UNSAFE.objectFieldOffset(Rules.class.getDeclaredField("plain"));
        } catch (ReflectiveOperationException wrong) {
            throw new AssertionError(wrong);
        }
    }
    static class LongSynchronizer extends AbstractQueuedLongSynchronizer {
        void all() {
            setState(1); //: w(Rules$LongSynchronizer@)
            getState(); //: r(Rules$LongSynchronizer@)
            compareAndSetState(1, 2); //: w(Rules$LongSynchronizer@)
            compareAndSetState(1, 3); //: r(Rules$LongSynchronizer@)
        }
    }
    static class Synchronizer extends AbstractQueuedSynchronizer {
        void all() {
            setState(1); //: w(Rules$Synchronizer@)
            getState(); //: r(Rules$Synchronizer@)
            compareAndSetState(1, 2); //: w(Rules$Synchronizer@)
            compareAndSetState(1, 3); //: r(Rules$Synchronizer@)
        }
    }

    static void handles() {
        Rules it = new Rules();
        PLAIN.setVolatile(it, 1); //: w(Rules.plain@)
        int value = (int) PLAIN.getVolatile(it); //: r(Rules.plain@)
        value = (int) PLAIN.getAndAdd(it, 1); //: w(Rules.plain@)
        PLAIN.compareAndSet(it, 2, 3); //: w(Rules.plain@)
        PLAIN.compareAndSet(it, 2, 4); //: r(Rules.plain@)
        TOTAL.setRelease(7); //: w(Rules.total)
        int[] ints = new int[2];
        ELEMENT.set(ints, 1, 8); //: w(int[]@[1])
        UNSAFE.putIntVolatile(it, OFFSET, 9); //: w(Rules.plain@)
        UNSAFE.getInt(it, OFFSET); //: r(Rules.plain@)
        UNSAFE.compareAndSwapInt(it, OFFSET, 9, 10); //: w(Rules.plain@)
        UNSAFE.compareAndSwapInt(it, OFFSET, 9, 11); //: r(Rules.plain@)
        UNSAFE.putInt(ints, (long) Unsafe.ARRAY_INT_BASE_OFFSET + Unsafe.ARRAY_INT_INDEX_SCALE, 1); //: w(int[]@[1])
        new Synchronizer().all();
        new LongSynchronizer().all();
    }

    static void helps() throws Exception {
        Semaphore semaphore = new Semaphore(1);
        semaphore.acquire();
        semaphore.tryAcquire();
        semaphore.release(2); //: w(Semaphore@.permit#)
        semaphore.tryAcquire(); //: r(Semaphore@.permit#)
        semaphore.drainPermits(); //: r(Semaphore@.permit#)
        Semaphore many = new Semaphore(Integer.MAX_VALUE);
        many.acquire(Integer.MAX_VALUE);
        many.release(Integer.MAX_VALUE - 1); //: w(Semaphore@.permit#)
        many.release(); //: w(Semaphore@.permit#)
        many.acquire(Integer.MAX_VALUE); //: r(Semaphore@.permit#)
        CountDownLatch latch = new CountDownLatch(1);
        latch.countDown(); //: w(CountDownLatch@.all#)
        latch.await(); //: r(CountDownLatch@.all#)
        new CyclicBarrier(1).await(); //: w(CyclicBarrier@.meeting1.all#) r(CyclicBarrier@.meeting1.all#)
        Phaser phaser = new Phaser(1);
        phaser.arriveAndAwaitAdvance(); //: w(Phaser@.phase0.all#) r(Phaser@.phase0.all#)
        phaser.arrive(); //: w(Phaser@.phase1.all#)
        phaser.awaitAdvance(1); //: r(Phaser@.phase1.all#)
        try {
            new Exchanger<Object>().exchange(latch, 1, TimeUnit.NANOSECONDS); //: w(Exchanger@.item#)
        } catch (TimeoutException wanted) {
            LockSupport.unpark(Thread.currentThread()); //: w(Thread@.all#)
        }
        LockSupport.park(); //: r(Thread@.all#)
        BlockingQueue<Object> queue = new ArrayBlockingQueue<>(2);
        queue.put(latch); //: w(ArrayBlockingQueue@.item#)
        queue.offer(phaser); //: w(ArrayBlockingQueue@.item#)
        queue.take(); //: r(ArrayBlockingQueue@.item#)
        queue.peek(); //: r(ArrayBlockingQueue@.item#) w(ArrayBlockingQueue@.head#)
        queue.poll(); //: r(ArrayBlockingQueue@.item#) w(ArrayBlockingQueue@.head#)
        queue.poll(); //: w(ArrayBlockingQueue@.none#)
        queue.isEmpty(); //: w(ArrayBlockingQueue@.none#)
        queue.size(); //: w(ArrayBlockingQueue@.none#) w(ArrayBlockingQueue@.head#)
        queue.add(latch); //: w(ArrayBlockingQueue@.item#)
        queue.add(latch); //: w(ArrayBlockingQueue@.item#)
        if (queue.offer(latch)) return; //: w(ArrayBlockingQueue@.head#)
        queue.remove(latch); //: r(ArrayBlockingQueue@.item#) w(ArrayBlockingQueue@.head#)
        queue.drainTo(new ArrayList<>()); //: r(ArrayBlockingQueue@.item#) w(ArrayBlockingQueue@.none#)
        queue.clear(); //: w(ArrayBlockingQueue@.none#)
    }

    interface Looking {
        default Object look(Map<Object, Object> map) {
            return map.get("a"); //: r(HashMap@)
        }
    }
    /** A call before the constructor of the class above. */
    static class Fed extends Below implements Looking {
        Fed(Map<Object, Object> map) {
            this(map.get("a")); //: r(HashMap@)
        }
        Fed(Object found) {
            super();
            own = found.hashCode(); //: w(Rules$Below.own@)
        }
    }

    static void maps() {
        ConcurrentMap<Object, Object> map = new ConcurrentHashMap<>();
        map.put("a", 1); //: r(ConcurrentHashMap@.clear) w(ConcurrentHashMap@.key#) w(ConcurrentHashMap@.all#)
        map.get("a"); //: r(ConcurrentHashMap@.clear) r(ConcurrentHashMap@.key#)
        map.putIfAbsent("a", 2); //: r(ConcurrentHashMap@.clear) r(ConcurrentHashMap@.key#)
        map.computeIfAbsent("a", key -> total); //: r(ConcurrentHashMap@.clear) r(ConcurrentHashMap@.key#)
        map.computeIfAbsent("b", key -> total); //: r(Rules.total) r(ConcurrentHashMap@.clear) w(ConcurrentHashMap@.key#) w(ConcurrentHashMap@.all#)
        map.compute("b", (key, before) -> total + 1); //: r(Rules.total) r(ConcurrentHashMap@.clear) w(ConcurrentHashMap@.key#) w(ConcurrentHashMap@.all#)
        map.compute("b", (key, before) -> before); //: r(ConcurrentHashMap@.clear) r(ConcurrentHashMap@.key#)
        map.compute("d", (key, before) -> null); //: r(ConcurrentHashMap@.clear) r(ConcurrentHashMap@.key#)
        map.merge("b", 1, (before, one) -> before); //: r(ConcurrentHashMap@.clear) r(ConcurrentHashMap@.key#)
        try {
            map.compute("b", (key, before) -> ((String) before).length()); //: r(ConcurrentHashMap@.clear) r(ConcurrentHashMap@.key#)
        } catch (ClassCastException wanted) {
            map.get("b"); //: r(ConcurrentHashMap@.clear) r(ConcurrentHashMap@.key#)
        }
        map.computeIfPresent("c", (key, before) -> total); //: r(ConcurrentHashMap@.clear) r(ConcurrentHashMap@.key#)
        map.merge("c", 1, (one, two) -> total); //: r(ConcurrentHashMap@.clear) w(ConcurrentHashMap@.key#) w(ConcurrentHashMap@.all#)
        map.get(new UUID(1, 2)); //: r(ConcurrentHashMap@.clear) r(ConcurrentHashMap@.key#.UUID)
        Set<Object> keys = ConcurrentHashMap.newKeySet();
        keys.add("a"); //: r(ConcurrentHashMap@.clear) w(ConcurrentHashMap@.key#) w(ConcurrentHashMap@.all#)
        keys.add("a"); //: r(ConcurrentHashMap@.clear) r(ConcurrentHashMap@.key#)
        keys.contains("a"); //: r(ConcurrentHashMap@.clear) r(ConcurrentHashMap@.key#)
        keys.clear(); //: w(ConcurrentHashMap@.clear)
        map.putIfAbsent(Color.RED, 2); //: r(ConcurrentHashMap@.clear) w(ConcurrentHashMap@.key@) w(ConcurrentHashMap@.all#)
        map.get("negative hash"); //: r(ConcurrentHashMap@.clear) r(ConcurrentHashMap@.key#)
        map.get(new Key()); //: r(ConcurrentHashMap@.clear) r(ConcurrentHashMap@.key)
        map.size(); //: r(ConcurrentHashMap@.clear) r(ConcurrentHashMap@.all#) w(ConcurrentHashMap@.look#)
        map.put("b", 1); //: r(ConcurrentHashMap@.clear) r(ConcurrentHashMap@.look#) w(ConcurrentHashMap@.key#) w(ConcurrentHashMap@.all#)
        map.clear(); //: w(ConcurrentHashMap@.clear)
        Map<Object, Object> seen = map;
        seen.remove("a"); //: r(ConcurrentHashMap@.clear) r(ConcurrentHashMap@.key#)
        Map<Object, Object> plain = new HashMap<>();
        plain.put("a", 1); //: w(HashMap@)
        plain.get("a"); //: r(HashMap@)
        plain.keySet(); //: r(HashMap@)
        new Fed(plain).look(plain);
        List<Object> list = new ArrayList<>();
        list.add(map); //: w(ArrayList@)
        list.remove(map); //: w(ArrayList@)
        list.isEmpty(); //: r(ArrayList@)
        list.add(map); //: w(ArrayList@)
        Iterator<Object> each = list.iterator(); //: r(ArrayList@)
        each.next();
        each.remove(); //: w(ArrayList@)
        Iterator<Object> left = new HashSet<Object>(Collections.singleton(map)).iterator(); //: r(HashSet@)
        left.next();
        left.remove(); //: w(HashSet@)
        new CopyOnWriteArrayList<>(list).contains(map); //: r(CopyOnWriteArrayList@)
        new Words().addTwice("word");
        Queue<Object> queue = new ArrayDeque<>();
        queue.add(map); //: w(ArrayDeque@)
        queue.remove(); //: w(ArrayDeque@)
        Collections.synchronizedMap(plain).get("a"); //: r(HashMap@)
        Collections.unmodifiableCollection(list).size(); //: r(ArrayList@)
        plain.keySet().remove("a"); //: r(HashMap@) w(HashMap@)
        list.subList(0, 0).size(); //: r(ArrayList@) r(ArrayList@)
        map.keySet().contains("a"); //: r(ConcurrentHashMap@.clear) r(ConcurrentHashMap@.all#) w(ConcurrentHashMap@.look#) r(ConcurrentHashMap@.clear) r(ConcurrentHashMap@.key#)
        map.values().remove("a"); //: r(ConcurrentHashMap@.clear) r(ConcurrentHashMap@.all#) w(ConcurrentHashMap@.look#) r(ConcurrentHashMap@.clear) r(ConcurrentHashMap@.all#) w(ConcurrentHashMap@.look#)
    }

    static class Counter implements Runnable {
        AtomicLong count = new AtomicLong(); //: w(Rules$Counter.count@)

        @Override public void run() {
            count.set(1); //: r(Rules$Counter.count@) w(AtomicLong@)
        }
    }

    static void threads() throws InterruptedException {
        Thread thread = new Thread(new Counter());
        thread.start();
        thread.join();
        // One that runs still isn't joined.
        Thread sleeper = new Thread(() -> {
            try {
                Thread.sleep(1_000_000);
            } catch (InterruptedException wanted) {
                total = 5; //: w(Rules.total)
            }
        });
        sleeper.start();
        sleeper.join(1);
        sleeper.interrupt();
        sleeper.join();
    }

    public static void main(String[] words) throws Exception {
        fields();
        arrays();
        monitors();
        locks();
        atomics();
        handles();
        helps();
        maps();
        threads();
    }
}
