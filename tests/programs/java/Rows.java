import java.lang.invoke.MethodHandles;
import java.lang.invoke.VarHandle;
import java.lang.reflect.Field;
import java.util.AbstractCollection;
import java.util.AbstractList;
import java.util.AbstractMap;
import java.util.AbstractSet;
import java.util.ArrayDeque;
import java.util.ArrayList;
import java.util.Arrays;
import java.util.BitSet;
import java.util.Collection;
import java.util.Collections;
import java.util.Date;
import java.util.Deque;
import java.util.EnumMap;
import java.util.HashMap;
import java.util.HashSet;
import java.util.Hashtable;
import java.util.IdentityHashMap;
import java.util.Iterator;
import java.util.LinkedHashMap;
import java.util.LinkedHashSet;
import java.util.LinkedList;
import java.util.List;
import java.util.ListIterator;
import java.util.Map;
import java.util.NavigableMap;
import java.util.NavigableSet;
import java.util.PriorityQueue;
import java.util.Properties;
import java.util.Queue;
import java.util.Set;
import java.util.SortedMap;
import java.util.SortedSet;
import java.util.Stack;
import java.util.TreeMap;
import java.util.TreeSet;
import java.util.Vector;
import java.util.WeakHashMap;
import java.util.concurrent.ArrayBlockingQueue;
import java.util.concurrent.BlockingDeque;
import java.util.concurrent.BlockingQueue;
import java.util.concurrent.ConcurrentHashMap;
import java.util.concurrent.ConcurrentLinkedDeque;
import java.util.concurrent.ConcurrentLinkedQueue;
import java.util.concurrent.ConcurrentMap;
import java.util.concurrent.ConcurrentNavigableMap;
import java.util.concurrent.ConcurrentSkipListMap;
import java.util.concurrent.ConcurrentSkipListSet;
import java.util.concurrent.CopyOnWriteArrayList;
import java.util.concurrent.CopyOnWriteArraySet;
import java.util.concurrent.CountDownLatch;
import java.util.concurrent.CyclicBarrier;
import java.util.concurrent.DelayQueue;
import java.util.concurrent.Delayed;
import java.util.concurrent.Exchanger;
import java.util.concurrent.LinkedBlockingDeque;
import java.util.concurrent.LinkedBlockingQueue;
import java.util.concurrent.LinkedTransferQueue;
import java.util.concurrent.Phaser;
import java.util.concurrent.PriorityBlockingQueue;
import java.util.concurrent.Semaphore;
import java.util.concurrent.SynchronousQueue;
import java.util.concurrent.TimeUnit;
import java.util.concurrent.TransferQueue;
import java.util.concurrent.atomic.AtomicBoolean;
import java.util.concurrent.atomic.AtomicInteger;
import java.util.concurrent.atomic.AtomicIntegerArray;
import java.util.concurrent.atomic.AtomicIntegerFieldUpdater;
import java.util.concurrent.atomic.AtomicLong;
import java.util.concurrent.atomic.AtomicLongArray;
import java.util.concurrent.atomic.AtomicLongFieldUpdater;
import java.util.concurrent.atomic.AtomicMarkableReference;
import java.util.concurrent.atomic.AtomicReference;
import java.util.concurrent.atomic.AtomicReferenceArray;
import java.util.concurrent.atomic.AtomicReferenceFieldUpdater;
import java.util.concurrent.atomic.AtomicStampedReference;
import java.util.concurrent.atomic.DoubleAccumulator;
import java.util.concurrent.atomic.DoubleAdder;
import java.util.concurrent.atomic.LongAccumulator;
import java.util.concurrent.atomic.LongAdder;
import java.util.concurrent.locks.Condition;
import java.util.concurrent.locks.Lock;
import java.util.concurrent.locks.LockSupport;
import java.util.concurrent.locks.ReentrantLock;
import java.util.concurrent.locks.ReentrantReadWriteLock;
import java.util.concurrent.locks.StampedLock;
import sun.misc.Unsafe;

/**
 * Each method and each class of the agent's table once: behind `//:` stand the events of each line, as in Rules.java. A line that
 * has none there logs none.
 */
public class Rows {
    volatile int number;
    volatile long wide;
    volatile Object object;
    int plain;

    // ---- atomics

    static void atomics() throws Exception {
        AtomicInteger it = new AtomicInteger();
        it.get(); //: r(AtomicInteger@)
        it.getPlain(); //: r(AtomicInteger@)
        it.getOpaque(); //: r(AtomicInteger@)
        it.getAcquire(); //: r(AtomicInteger@)
        it.toString(); //: r(AtomicInteger@)
        it.byteValue(); //: r(AtomicInteger@)
        it.shortValue(); //: r(AtomicInteger@)
        it.intValue(); //: r(AtomicInteger@)
        it.longValue(); //: r(AtomicInteger@)
        it.floatValue(); //: r(AtomicInteger@)
        it.doubleValue(); //: r(AtomicInteger@)
        it.compareAndSet(0, 1); //: w(AtomicInteger@)
        it.compareAndSet(0, 1); //: r(AtomicInteger@)
        it.weakCompareAndSetVolatile(0, 1); //: r(AtomicInteger@)
        it.getAndUpdate(value -> value); //: w(AtomicInteger@)
        it.updateAndGet(value -> value); //: w(AtomicInteger@)
        it.getAndAccumulate(1, (one, two) -> one); //: w(AtomicInteger@)
        it.accumulateAndGet(1, (one, two) -> one); //: w(AtomicInteger@)
        it.hashCode();
        it.equals(it);
        it.getClass();
        it.set(1); //: w(AtomicInteger@)
        it.lazySet(1); //: w(AtomicInteger@)
        it.setPlain(1); //: w(AtomicInteger@)
        it.getAndSet(1); //: w(AtomicInteger@)
        it.getAndIncrement(); //: w(AtomicInteger@)
        it.decrementAndGet(); //: w(AtomicInteger@)
        it.compareAndExchange(1, 2); //: w(AtomicInteger@)
        synchronized (it) { //: acq(AtomicInteger@)
            it.wait(1); //: rel(AtomicInteger@) acq(AtomicInteger@)
            it.wait(0, 1); //: rel(AtomicInteger@) acq(AtomicInteger@)
            it.notify();
            it.notifyAll();
        } //: rel(AtomicInteger@)
        new AtomicLong().get(); //: r(AtomicLong@)
        new AtomicBoolean().set(true); //: w(AtomicBoolean@)
        new AtomicReference<>().get(); //: r(AtomicReference@)
        AtomicIntegerArray ints = new AtomicIntegerArray(2);
        ints.length();
        ints.get(1); //: r(AtomicIntegerArray@[1])
        ints.updateAndGet(1, value -> value); //: w(AtomicIntegerArray@[1])
        ints.getAndAccumulate(0, 1, (one, two) -> one); //: w(AtomicIntegerArray@[0])
        new AtomicLongArray(2).set(1, 5); //: w(AtomicLongArray@[1])
        new AtomicReferenceArray<Object>(2).compareAndSet(1, null, it); //: w(AtomicReferenceArray@[1])
    }

    static final AtomicIntegerFieldUpdater<Rows> NUMBER = AtomicIntegerFieldUpdater.newUpdater(Rows.class, "number");
    static final AtomicLongFieldUpdater<Rows> WIDE = AtomicLongFieldUpdater.newUpdater(Rows.class, "wide");
    static final AtomicReferenceFieldUpdater<Rows, Object> OBJECT =
            AtomicReferenceFieldUpdater.newUpdater(Rows.class, Object.class, "object");

    static void updaters() throws Exception {
        Rows of = new Rows();
        NUMBER.get(of); //: r(Rows.number@)
        NUMBER.compareAndSet(of, 0, 1); //: w(Rows.number@)
        NUMBER.compareAndSet(of, 0, 1); //: r(Rows.number@)
        NUMBER.weakCompareAndSet(of, 0, 1); //: r(Rows.number@)
        NUMBER.getAndUpdate(of, value -> value); //: w(Rows.number@)
        NUMBER.updateAndGet(of, value -> value); //: w(Rows.number@)
        NUMBER.getAndAccumulate(of, 1, (one, two) -> one); //: w(Rows.number@)
        NUMBER.accumulateAndGet(of, 1, (one, two) -> one); //: w(Rows.number@)
        NUMBER.set(of, 1); //: w(Rows.number@)
        NUMBER.lazySet(of, 1); //: w(Rows.number@)
        NUMBER.hashCode();
        NUMBER.equals(of);
        NUMBER.toString();
        NUMBER.getClass();
        WIDE.get(of); //: r(Rows.wide@)
        OBJECT.set(of, of); //: w(Rows.object@)
        int[] held = new int[1];
        AtomicStampedReference<Object> stamped = new AtomicStampedReference<>(of, 1);
        stamped.getReference(); //: r(AtomicStampedReference@)
        stamped.getStamp(); //: r(AtomicStampedReference@)
        stamped.get(held); //: r(AtomicStampedReference@)
        stamped.attemptStamp(of, 2); //: w(AtomicStampedReference@)
        stamped.attemptStamp(held, 2); //: r(AtomicStampedReference@)
        stamped.compareAndSet(of, held, 2, 3); //: w(AtomicStampedReference@)
        AtomicMarkableReference<Object> marked = new AtomicMarkableReference<>(of, true);
        marked.isMarked(); //: r(AtomicMarkableReference@)
        marked.attemptMark(of, false); //: w(AtomicMarkableReference@)
        marked.attemptMark(held, false); //: r(AtomicMarkableReference@)
        marked.set(of, true); //: w(AtomicMarkableReference@)
        synchronized (marked) { //: acq(AtomicMarkableReference@)
            marked.wait(1); //: rel(AtomicMarkableReference@) acq(AtomicMarkableReference@)
            marked.notify();
            marked.notifyAll();
        } //: rel(AtomicMarkableReference@)
    }

    /** One that has been looked at, by this thread. */
    static LongAdder looked() {
        LongAdder it = new LongAdder();
        it.sum(); //: w(LongAdder@.look#)
        return it;
    }

    static void adders() {
        looked().add(2); //: r(LongAdder@.look#) w(LongAdder@.all#)
        looked().increment(); //: r(LongAdder@.look#) w(LongAdder@.all#)
        looked().decrement(); //: r(LongAdder@.look#) w(LongAdder@.all#)
        looked().reset(); //: r(LongAdder@.look#) w(LongAdder@.look#) w(LongAdder@.all#)
        looked().sumThenReset(); //: r(LongAdder@.look#) w(LongAdder@.look#) w(LongAdder@.all#)
        LongAdder it = new LongAdder();
        it.add(1); //: w(LongAdder@.all#)
        it.sum(); //: r(LongAdder@.all#) w(LongAdder@.look#)
        it.byteValue(); //: r(LongAdder@.all#) w(LongAdder@.look#)
        it.shortValue(); //: r(LongAdder@.all#) w(LongAdder@.look#)
        it.intValue(); //: r(LongAdder@.all#) w(LongAdder@.look#)
        it.longValue(); //: r(LongAdder@.all#) w(LongAdder@.look#)
        it.floatValue(); //: r(LongAdder@.all#) w(LongAdder@.look#)
        it.doubleValue(); //: r(LongAdder@.all#) w(LongAdder@.look#)
        it.toString(); //: r(LongAdder@.all#) w(LongAdder@.look#)
        new DoubleAdder().add(1); //: w(DoubleAdder@.all#)
    }

    /** A class of the program may have methods of its own in their places. */
    static class Adder extends LongAdder {
        private static final long serialVersionUID = 1;
    }

    static void addersOfTheProgram() {
        LongAdder it = new Adder();
        it.add(1); //: w(Rows$Adder@.all#)
        it.sum(); //: r(Rows$Adder@.all#) w(Rows$Adder@.look#)
        it.reset(); //: r(Rows$Adder@.look#) r(Rows$Adder@.all#) w(Rows$Adder@.look#) w(Rows$Adder@.all#)
    }

    static LongAccumulator lookedAt() {
        LongAccumulator it = new LongAccumulator(Long::max, 0);
        it.get(); //: w(LongAccumulator@.look#)
        return it;
    }

    static void accumulators() {
        lookedAt().accumulate(1); //: r(LongAccumulator@.look#) w(LongAccumulator@.all#)
        lookedAt().reset(); //: r(LongAccumulator@.look#) w(LongAccumulator@.look#) w(LongAccumulator@.all#)
        lookedAt().getThenReset(); //: r(LongAccumulator@.look#) w(LongAccumulator@.look#) w(LongAccumulator@.all#)
        LongAccumulator it = new LongAccumulator(Long::max, 0);
        it.accumulate(1); //: w(LongAccumulator@.all#)
        it.get(); //: r(LongAccumulator@.all#) w(LongAccumulator@.look#)
        it.byteValue(); //: r(LongAccumulator@.all#) w(LongAccumulator@.look#)
        it.shortValue(); //: r(LongAccumulator@.all#) w(LongAccumulator@.look#)
        it.intValue(); //: r(LongAccumulator@.all#) w(LongAccumulator@.look#)
        it.longValue(); //: r(LongAccumulator@.all#) w(LongAccumulator@.look#)
        it.floatValue(); //: r(LongAccumulator@.all#) w(LongAccumulator@.look#)
        it.doubleValue(); //: r(LongAccumulator@.all#) w(LongAccumulator@.look#)
        it.toString(); //: r(LongAccumulator@.all#) w(LongAccumulator@.look#)
        new DoubleAccumulator(Double::max, 0).accumulate(1); //: w(DoubleAccumulator@.all#)
    }

    // ---- locks

    /** A lock of the program, which has its methods from one of the JDK. */
    static class View extends ReentrantReadWriteLock.ReadLock {
        View(ReentrantReadWriteLock of) { super(of); }
    }

    static void locksOfTheProgram() throws Exception {
        ReentrantReadWriteLock both = new ReentrantReadWriteLock();
        View view = new View(both);
        view.lock(); //: r(rw.ReentrantReadWriteLock$NonfairSync@)
        view.unlock(); //: r(rw.ReentrantReadWriteLock$NonfairSync@)
        view.lockInterruptibly(); //: r(rw.ReentrantReadWriteLock$NonfairSync@)
        view.unlock(); //: r(rw.ReentrantReadWriteLock$NonfairSync@)
        view.tryLock(); //: r(rw.ReentrantReadWriteLock$NonfairSync@)
        view.unlock(); //: r(rw.ReentrantReadWriteLock$NonfairSync@)
        view.tryLock(1, TimeUnit.SECONDS); //: r(rw.ReentrantReadWriteLock$NonfairSync@)
        view.unlock(); //: r(rw.ReentrantReadWriteLock$NonfairSync@)
        both.writeLock().lock(); //: w(rw.ReentrantReadWriteLock$NonfairSync@)
        Thread other = new Thread(() -> {
            // Tries that fail.
            view.tryLock();
            try {
                view.tryLock(1, TimeUnit.NANOSECONDS);
            } catch (InterruptedException impossible) {
                throw new AssertionError(impossible);
            }
        });
        other.start();
        other.join();
    }

    static void locks() throws Exception {
        ReentrantLock lock = new ReentrantLock();
        Lock it = lock;
        it.lock(); //: acq(ReentrantLock$NonfairSync@)
        it.unlock(); //: rel(ReentrantLock$NonfairSync@)
        it.lockInterruptibly(); //: acq(ReentrantLock$NonfairSync@)
        it.unlock(); //: rel(ReentrantLock$NonfairSync@)
        it.tryLock(); //: acq(ReentrantLock$NonfairSync@)
        it.unlock(); //: rel(ReentrantLock$NonfairSync@)
        it.tryLock(1, TimeUnit.SECONDS); //: acq(ReentrantLock$NonfairSync@)
        it.unlock(); //: rel(ReentrantLock$NonfairSync@)
        ReentrantReadWriteLock both = new ReentrantReadWriteLock();
        it = both.readLock();
        it.lock(); //: r(rw.ReentrantReadWriteLock$NonfairSync@)
        it.unlock(); //: r(rw.ReentrantReadWriteLock$NonfairSync@)
        ReentrantReadWriteLock.ReadLock reader = both.readLock();
        reader.lockInterruptibly(); //: r(rw.ReentrantReadWriteLock$NonfairSync@)
        reader.unlock(); //: r(rw.ReentrantReadWriteLock$NonfairSync@)
        reader.tryLock(); //: r(rw.ReentrantReadWriteLock$NonfairSync@)
        reader.unlock(); //: r(rw.ReentrantReadWriteLock$NonfairSync@)
        ReentrantReadWriteLock.WriteLock writer = both.writeLock();
        writer.lockInterruptibly(); //: w(rw.ReentrantReadWriteLock$NonfairSync@)
        writer.unlock(); //: w(rw.ReentrantReadWriteLock$NonfairSync@)
        writer.tryLock(); //: w(rw.ReentrantReadWriteLock$NonfairSync@)
        writer.unlock(); //: w(rw.ReentrantReadWriteLock$NonfairSync@)

        Condition condition = lock.newCondition();
        lock.lock(); //: acq(ReentrantLock$NonfairSync@)
        condition.await(1, TimeUnit.NANOSECONDS); //: rel(ReentrantLock$NonfairSync@) acq(ReentrantLock$NonfairSync@)
        condition.awaitNanos(1); //: rel(ReentrantLock$NonfairSync@) acq(ReentrantLock$NonfairSync@)
        condition.awaitUntil(new Date(0)); //: rel(ReentrantLock$NonfairSync@) acq(ReentrantLock$NonfairSync@)
        Thread wakes = new Thread(() -> {
            lock.lock(); //: acq(ReentrantLock$NonfairSync@)
            condition.signal();
            lock.unlock(); //: rel(ReentrantLock$NonfairSync@)
        });
        wakes.start();
        condition.awaitUninterruptibly(); //: rel(ReentrantLock$NonfairSync@) acq(ReentrantLock$NonfairSync@)
        lock.unlock(); //: rel(ReentrantLock$NonfairSync@)
        wakes.join();
    }

    static void stamps() throws Exception {
        StampedLock it = new StampedLock();
        long stamp = it.writeLock(); //: w(StampedLock@)
        it.unlockWrite(stamp); //: w(StampedLock@)
        it.tryUnlockWrite();
        it.writeLock(); //: w(StampedLock@)
        it.tryUnlockWrite(); //: w(StampedLock@)
        it.tryUnlockRead();
        it.readLock(); //: r(StampedLock@)
        it.tryUnlockRead(); //: r(StampedLock@)
        stamp = it.writeLockInterruptibly(); //: w(StampedLock@)
        it.unlock(stamp); //: w(StampedLock@)
        stamp = it.tryWriteLock(); //: w(StampedLock@)
        stamp = it.tryConvertToReadLock(stamp); //: w(StampedLock@)
        stamp = it.tryConvertToWriteLock(stamp); //: w(StampedLock@)
        stamp = it.tryConvertToOptimisticRead(stamp); //: w(StampedLock@)
        it.validate(stamp); //: r(StampedLock@)
        stamp = it.readLock(); //: r(StampedLock@)
        it.unlockRead(stamp); //: r(StampedLock@)
        stamp = it.readLockInterruptibly(); //: r(StampedLock@)
        it.unlock(stamp); //: r(StampedLock@)
        stamp = it.tryReadLock(); //: r(StampedLock@)
        stamp = it.tryConvertToOptimisticRead(stamp); //: r(StampedLock@)
        it.tryOptimisticRead(); //: r(StampedLock@)
        stamp = it.tryConvertToReadLock(stamp); //: r(StampedLock@)
        it.unlock(stamp); //: r(StampedLock@)
        // Tries that fail.
        it.writeLock(); //: w(StampedLock@)
        it.tryReadLock();
        it.tryOptimisticRead();
        it.tryWriteLock();
    }

    // ---- synchronizers

    static class Waits extends Thread {
        @Override public void run() { LockSupport.park(); } //: r(Rows$Waits@.all#)
    }

    static void synchronizers() throws Exception {
        Semaphore it = new Semaphore(0);
        it.release(); //: w(Semaphore@.permit#)
        it.acquire(); //: r(Semaphore@.permit#)
        it.release(); //: w(Semaphore@.permit#)
        it.acquireUninterruptibly(); //: r(Semaphore@.permit#)
        it.release(); //: w(Semaphore@.permit#)
        it.tryAcquire(); //: r(Semaphore@.permit#)
        it.tryAcquire();
        it.release(); //: w(Semaphore@.permit#)
        it.release(); //: w(Semaphore@.permit#)
        it.drainPermits(); //: r(Semaphore@.permit#)
        CountDownLatch latch = new CountDownLatch(2);
        latch.countDown(); //: w(CountDownLatch@.all#)
        latch.getCount(); //: r(CountDownLatch@.all#) w(CountDownLatch@.look#)
        latch.countDown(); //: r(CountDownLatch@.look#) w(CountDownLatch@.all#)
        latch.await(); //: r(CountDownLatch@.all#)
        new CyclicBarrier(1).await(1, TimeUnit.SECONDS); //: w(CyclicBarrier@.meeting1.all#) r(CyclicBarrier@.meeting1.all#)
        Phaser phaser = new Phaser(1);
        phaser.arriveAndAwaitAdvance(); //: w(Phaser@.phase0.all#) r(Phaser@.phase0.all#)
        phaser.register();
        phaser.arriveAndDeregister(); //: w(Phaser@.phase1.all#)
        phaser.arrive(); //: w(Phaser@.phase1.all#)
        phaser.awaitAdvance(1); //: r(Phaser@.phase1.all#)
        phaser.awaitAdvanceInterruptibly(1); //: r(Phaser@.phase1.all#)
        Exchanger<Object> exchanger = new Exchanger<>();
        Thread other = new Thread(() -> {
            try {
                exchanger.exchange("a"); //: w(Exchanger@.item#) r(Exchanger@.item#)
            } catch (InterruptedException impossible) {
                throw new AssertionError(impossible);
            }
        });
        other.start();
        exchanger.exchange("b"); //: w(Exchanger@.item#) r(Exchanger@.item#)
        other.join();
        Thread waits = new Waits();
        waits.start();
        LockSupport.unpark(waits); //: w(Rows$Waits@.all#)
        waits.join();
        LockSupport.unpark(Thread.currentThread()); //: w(Thread@.all#)
        LockSupport.parkNanos(1); //: r(Thread@.all#)
        LockSupport.parkNanos(it, 1); //: r(Thread@.all#)
        LockSupport.parkUntil(1); //: r(Thread@.all#)
    }

    static class Guarded extends Thread {
        int count;

        @Override public void run() {
            synchronized (this) { //: acq(Rows$Guarded@)
                count++; //: r(Rows$Guarded.count@) w(Rows$Guarded.count@)
            } //: rel(Rows$Guarded@)
        }
    }

    /** A join gives the thread's monitor back, by lines without a place: else the thread couldn't have it. */
    static void joinWithinMonitor() throws InterruptedException {
        Guarded thread = new Guarded();
        synchronized (thread) { //: acq(Rows$Guarded@)
            thread.start();
            thread.join();
        } //: rel(Rows$Guarded@)
    }

    // ---- queues for several threads, by their own classes

    static LinkedBlockingDeque<Object> none() { return new LinkedBlockingDeque<>(); }
    static LinkedBlockingDeque<Object> one() {
        LinkedBlockingDeque<Object> it = new LinkedBlockingDeque<>();
        it.add("a"); //: w(LinkedBlockingDeque@.item#)
        return it;
    }
    /** Its next take writes head. */
    static LinkedBlockingDeque<Object> seen() {
        LinkedBlockingDeque<Object> it = one();
        it.isEmpty(); //: w(LinkedBlockingDeque@.head#)
        return it;
    }
    /** Another thread has seen that it is empty. Its next put reads that. */
    static LinkedBlockingDeque<Object> seenEmpty() throws InterruptedException {
        LinkedBlockingDeque<Object> it = new LinkedBlockingDeque<>();
        Thread other = new Thread(() -> {
            it.isEmpty(); //: w(LinkedBlockingDeque@.none#)
        });
        other.start();
        other.join();
        return it;
    }

    static void queues() throws Exception {
        none().put("a"); //: w(LinkedBlockingDeque@.item#)
        none().offer("a"); //: w(LinkedBlockingDeque@.item#)
        none().add("a"); //: w(LinkedBlockingDeque@.item#)
        none().putFirst("a"); //: w(LinkedBlockingDeque@.item#)
        none().putLast("a"); //: w(LinkedBlockingDeque@.item#)
        none().offerFirst("a"); //: w(LinkedBlockingDeque@.item#)
        none().offerLast("a"); //: w(LinkedBlockingDeque@.item#)
        none().addFirst("a"); //: w(LinkedBlockingDeque@.item#)
        none().addLast("a"); //: w(LinkedBlockingDeque@.item#)
        none().push("a"); //: w(LinkedBlockingDeque@.item#)
        one().take(); //: r(LinkedBlockingDeque@.item#)
        one().poll(); //: r(LinkedBlockingDeque@.item#)
        one().remove(); //: r(LinkedBlockingDeque@.item#)
        one().takeFirst(); //: r(LinkedBlockingDeque@.item#)
        one().takeLast(); //: r(LinkedBlockingDeque@.item#)
        one().pollFirst(); //: r(LinkedBlockingDeque@.item#)
        one().pollLast(); //: r(LinkedBlockingDeque@.item#)
        one().removeFirst(); //: r(LinkedBlockingDeque@.item#)
        one().removeLast(); //: r(LinkedBlockingDeque@.item#)
        one().pop(); //: r(LinkedBlockingDeque@.item#)
        one().peek(); //: r(LinkedBlockingDeque@.item#) w(LinkedBlockingDeque@.head#) w(LinkedBlockingDeque@.first#)
        one().element(); //: r(LinkedBlockingDeque@.item#) w(LinkedBlockingDeque@.head#) w(LinkedBlockingDeque@.first#)
        one().peekFirst(); //: r(LinkedBlockingDeque@.item#) w(LinkedBlockingDeque@.head#) w(LinkedBlockingDeque@.first#)
        one().peekLast(); //: r(LinkedBlockingDeque@.item#) w(LinkedBlockingDeque@.head#) w(LinkedBlockingDeque@.last#)
        one().getFirst(); //: r(LinkedBlockingDeque@.item#) w(LinkedBlockingDeque@.head#) w(LinkedBlockingDeque@.first#)
        one().getLast(); //: r(LinkedBlockingDeque@.item#) w(LinkedBlockingDeque@.head#) w(LinkedBlockingDeque@.last#)
        one().drainTo(new ArrayList<>()); //: r(LinkedBlockingDeque@.item#) w(LinkedBlockingDeque@.none#)
        one().drainTo(new LinkedList<>(ABC)); //: r(LinkedBlockingDeque@.item#) w(LinkedBlockingDeque@.none#)
        one().drainTo(new ArrayDeque<>(ABC)); //: r(LinkedBlockingDeque@.item#) w(LinkedBlockingDeque@.none#)
        one().drainTo(new HashSet<>()); //: r(LinkedBlockingDeque@.item#) w(LinkedBlockingDeque@.none#)
        one().isEmpty(); //: w(LinkedBlockingDeque@.head#)
        one().size(); //: w(LinkedBlockingDeque@.none#) w(LinkedBlockingDeque@.head#)
        one().remainingCapacity(); //: w(LinkedBlockingDeque@.none#) w(LinkedBlockingDeque@.head#)
        one().contains("a"); //: w(LinkedBlockingDeque@.head#)
        one().containsAll(ABC); //: w(LinkedBlockingDeque@.none#)
        one().iterator(); //: w(LinkedBlockingDeque@.none#) w(LinkedBlockingDeque@.head#)
        one().descendingIterator(); //: w(LinkedBlockingDeque@.none#) w(LinkedBlockingDeque@.head#)
        one().forEach(item -> { }); //: w(LinkedBlockingDeque@.none#) w(LinkedBlockingDeque@.head#)
        one().toArray(); //: w(LinkedBlockingDeque@.none#) w(LinkedBlockingDeque@.head#)
        one().stream(); //: w(LinkedBlockingDeque@.none#) w(LinkedBlockingDeque@.head#)
        one().parallelStream(); //: w(LinkedBlockingDeque@.none#) w(LinkedBlockingDeque@.head#)
        one().spliterator(); //: w(LinkedBlockingDeque@.none#) w(LinkedBlockingDeque@.head#)
        one().remove("a"); //: r(LinkedBlockingDeque@.item#)
        one().removeFirstOccurrence("a"); //: r(LinkedBlockingDeque@.item#)
        one().removeLastOccurrence("a"); //: r(LinkedBlockingDeque@.item#)
        seen().clear(); //: r(LinkedBlockingDeque@.item#) w(LinkedBlockingDeque@.head#) w(LinkedBlockingDeque@.none#)
        seen().removeAll(ABC); //: r(LinkedBlockingDeque@.item#) w(LinkedBlockingDeque@.head#) w(LinkedBlockingDeque@.none#)
        seen().removeIf(item -> true); //: r(LinkedBlockingDeque@.item#) w(LinkedBlockingDeque@.head#) w(LinkedBlockingDeque@.none#)
        seen().retainAll(Collections.emptyList()); //: r(LinkedBlockingDeque@.item#) w(LinkedBlockingDeque@.head#) w(LinkedBlockingDeque@.none#)
        seenEmpty().addAll(ABC); //: r(LinkedBlockingDeque@.none#)
    }

    static class Soon implements Delayed {
        @Override public long getDelay(TimeUnit unit) { return 0; }
        @Override public int compareTo(Delayed other) { return 0; }
    }
    static final Object[] NOTHING = {};
    static final List<Object> ABC = Arrays.asList("a", "b", "c");

    static void queuesOfEachClass() throws Exception {
        BlockingQueue<Object> blocking = new LinkedBlockingQueue<>();
        blocking.put("a"); //: w(LinkedBlockingQueue@.item#)
        BlockingDeque<Object> deque = new LinkedBlockingDeque<>();
        deque.put("a"); //: w(LinkedBlockingDeque@.item#)
        LinkedTransferQueue<Object> transfers = new LinkedTransferQueue<>();
        TransferQueue<Object> transfer = transfers;
        transfer.put("a"); //: w(LinkedTransferQueue@.item#)
        transfers.tryTransfer("b");
        transfers.take(); //: r(LinkedTransferQueue@.item#)
        Thread taker = new Thread(() -> {
            try {
                transfers.take(); //: r(LinkedTransferQueue@.item#)
            } catch (InterruptedException impossible) {
                throw new AssertionError(impossible);
            }
        });
        taker.start();
        transfers.transfer("c"); //: w(LinkedTransferQueue@.item#)
        taker.join();
        SynchronousQueue<Object> meets = new SynchronousQueue<>();
        taker = new Thread(() -> {
            try {
                meets.take(); //: r(SynchronousQueue@.item#)
                transfers.take(); //: r(LinkedTransferQueue@.item#)
            } catch (InterruptedException impossible) {
                throw new AssertionError(impossible);
            }
        });
        taker.start();
        meets.put("d"); //: w(SynchronousQueue@.item#)
        while (!transfers.hasWaitingConsumer()) Thread.yield();
        transfers.tryTransfer("e"); //: w(LinkedTransferQueue@.item#)
        taker.join();
        new LinkedBlockingQueue<Object>().put("a"); //: w(LinkedBlockingQueue@.item#)
        new ArrayBlockingQueue<Object>(1).put("a"); //: w(ArrayBlockingQueue@.item#)
        new PriorityBlockingQueue<Object>().put("a"); //: w(PriorityBlockingQueue@.item#)
        new SynchronousQueue<Object>().offer("a");
        new DelayQueue<Soon>().put(new Soon()); //: w(DelayQueue@.item#)
        new ConcurrentLinkedQueue<Object>().add("a"); //: w(ConcurrentLinkedQueue@.item#)
        new ConcurrentLinkedDeque<Object>().add("a"); //: w(ConcurrentLinkedDeque@.item#)
    }

    /** The same by the interfaces that collections for one thread have, too. */
    static void queuesByTheirInterfaces() throws Exception {
        Deque<Object> it = none();
        it.add("a"); //: w(LinkedBlockingDeque@.item#)
        it.remove("a"); //: r(LinkedBlockingDeque@.item#)
        it.offer("a"); //: w(LinkedBlockingDeque@.item#)
        it.removeFirstOccurrence("a"); //: r(LinkedBlockingDeque@.item#)
        it.push("a"); //: w(LinkedBlockingDeque@.item#)
        it.removeLastOccurrence("a"); //: r(LinkedBlockingDeque@.item#)
        it.addFirst("a"); //: w(LinkedBlockingDeque@.item#)
        it.remove(); //: r(LinkedBlockingDeque@.item#)
        it.addLast("a"); //: w(LinkedBlockingDeque@.item#)
        it.pop(); //: r(LinkedBlockingDeque@.item#)
        it.offerFirst("a"); //: w(LinkedBlockingDeque@.item#)
        it.poll(); //: r(LinkedBlockingDeque@.item#)
        it.offerLast("a"); //: w(LinkedBlockingDeque@.item#)
        it.removeFirst(); //: r(LinkedBlockingDeque@.item#)
        it.add("a"); //: w(LinkedBlockingDeque@.item#)
        it.removeLast(); //: r(LinkedBlockingDeque@.item#)
        it.add("a"); //: w(LinkedBlockingDeque@.item#)
        it.pollFirst(); //: r(LinkedBlockingDeque@.item#)
        it.add("a"); //: w(LinkedBlockingDeque@.item#)
        it.pollLast(); //: r(LinkedBlockingDeque@.item#)
        it = one();
        it.peek(); //: r(LinkedBlockingDeque@.item#) w(LinkedBlockingDeque@.head#) w(LinkedBlockingDeque@.first#)
        it.element(); //: r(LinkedBlockingDeque@.item#) w(LinkedBlockingDeque@.head#) w(LinkedBlockingDeque@.first#)
        it.peekFirst(); //: r(LinkedBlockingDeque@.item#) w(LinkedBlockingDeque@.head#) w(LinkedBlockingDeque@.first#)
        it.peekLast(); //: r(LinkedBlockingDeque@.item#) w(LinkedBlockingDeque@.head#) w(LinkedBlockingDeque@.last#)
        it.getFirst(); //: r(LinkedBlockingDeque@.item#) w(LinkedBlockingDeque@.head#) w(LinkedBlockingDeque@.first#)
        it.getLast(); //: r(LinkedBlockingDeque@.item#) w(LinkedBlockingDeque@.head#) w(LinkedBlockingDeque@.last#)
        it.isEmpty(); //: w(LinkedBlockingDeque@.head#)
        it = one();
        it.size(); //: w(LinkedBlockingDeque@.none#) w(LinkedBlockingDeque@.head#)
        it = one();
        it.contains("a"); //: w(LinkedBlockingDeque@.head#)
        it = one();
        it.containsAll(ABC); //: w(LinkedBlockingDeque@.none#)
        it = one();
        it.iterator(); //: w(LinkedBlockingDeque@.none#) w(LinkedBlockingDeque@.head#)
        it = one();
        it.descendingIterator(); //: w(LinkedBlockingDeque@.none#) w(LinkedBlockingDeque@.head#)
        it = one();
        it.forEach(item -> { }); //: w(LinkedBlockingDeque@.none#) w(LinkedBlockingDeque@.head#)
        it = one();
        it.toArray(); //: w(LinkedBlockingDeque@.none#) w(LinkedBlockingDeque@.head#)
        it = one();
        it.stream(); //: w(LinkedBlockingDeque@.none#) w(LinkedBlockingDeque@.head#)
        it.parallelStream(); //: w(LinkedBlockingDeque@.head#) w(LinkedBlockingDeque@.none#) w(LinkedBlockingDeque@.head#)
        it.spliterator(); //: w(LinkedBlockingDeque@.head#) w(LinkedBlockingDeque@.none#) w(LinkedBlockingDeque@.head#)
        it = seen();
        it.clear(); //: r(LinkedBlockingDeque@.item#) w(LinkedBlockingDeque@.head#) w(LinkedBlockingDeque@.none#)
        it = seen();
        it.removeAll(ABC); //: r(LinkedBlockingDeque@.item#) w(LinkedBlockingDeque@.head#) w(LinkedBlockingDeque@.none#)
        it = seen();
        it.removeIf(item -> true); //: r(LinkedBlockingDeque@.item#) w(LinkedBlockingDeque@.head#) w(LinkedBlockingDeque@.none#)
        it = seen();
        it.retainAll(Collections.emptyList()); //: r(LinkedBlockingDeque@.item#) w(LinkedBlockingDeque@.head#) w(LinkedBlockingDeque@.none#)
        it = seenEmpty();
        it.addAll(ABC); //: r(LinkedBlockingDeque@.none#)
    }

    // ---- maps and sets for several threads

    static ConcurrentHashMap<Object, Object> map() { return new ConcurrentHashMap<>(); }
    static ConcurrentHashMap<Object, Object> filled() { return new ConcurrentHashMap<>(Collections.singletonMap("a", "b")); }
    static Map<Object, Object> mapByItsInterface() { return new ConcurrentHashMap<>(); }

    static void maps() {
        map().get("a"); //: r(ConcurrentHashMap@.clear) r(ConcurrentHashMap@.key#)
        map().containsKey("a"); //: r(ConcurrentHashMap@.clear) r(ConcurrentHashMap@.key#)
        map().getOrDefault("a", 1); //: r(ConcurrentHashMap@.clear) r(ConcurrentHashMap@.key#)
        map().put("a", 1); //: r(ConcurrentHashMap@.clear) w(ConcurrentHashMap@.key#) w(ConcurrentHashMap@.all#)
        map().remove("a"); //: r(ConcurrentHashMap@.clear) r(ConcurrentHashMap@.key#)
        map().replace("a", 1); //: r(ConcurrentHashMap@.clear) r(ConcurrentHashMap@.key#)
        map().compute("a", (key, value) -> 1); //: r(ConcurrentHashMap@.clear) w(ConcurrentHashMap@.key#) w(ConcurrentHashMap@.all#)
        map().computeIfPresent("a", (key, value) -> 1); //: r(ConcurrentHashMap@.clear) r(ConcurrentHashMap@.key#)
        map().merge("a", 1, (one, two) -> 1); //: r(ConcurrentHashMap@.clear) w(ConcurrentHashMap@.key#) w(ConcurrentHashMap@.all#)
        map().putIfAbsent("a", 1); //: r(ConcurrentHashMap@.clear) w(ConcurrentHashMap@.key#) w(ConcurrentHashMap@.all#)
        map().computeIfAbsent("a", key -> 1); //: r(ConcurrentHashMap@.clear) w(ConcurrentHashMap@.key#) w(ConcurrentHashMap@.all#)
        filled().putIfAbsent("a", 1); //: r(ConcurrentHashMap@.clear) r(ConcurrentHashMap@.key#)
        filled().computeIfAbsent("a", key -> 1); //: r(ConcurrentHashMap@.clear) r(ConcurrentHashMap@.key#)
        map().size(); //: r(ConcurrentHashMap@.clear) w(ConcurrentHashMap@.look#)
        map().isEmpty(); //: r(ConcurrentHashMap@.clear) w(ConcurrentHashMap@.look#)
        map().keySet(); //: r(ConcurrentHashMap@.clear) w(ConcurrentHashMap@.look#)
        map().values(); //: r(ConcurrentHashMap@.clear) w(ConcurrentHashMap@.look#)
        map().entrySet(); //: r(ConcurrentHashMap@.clear) w(ConcurrentHashMap@.look#)
        map().forEach((key, value) -> { }); //: r(ConcurrentHashMap@.clear) w(ConcurrentHashMap@.look#)
        map().mappingCount(); //: r(ConcurrentHashMap@.clear) w(ConcurrentHashMap@.look#)
        map().keys(); //: r(ConcurrentHashMap@.clear) w(ConcurrentHashMap@.look#)
        map().elements(); //: r(ConcurrentHashMap@.clear) w(ConcurrentHashMap@.look#)
        map().containsValue(1); //: r(ConcurrentHashMap@.clear) w(ConcurrentHashMap@.look#)
        map().clear(); //: w(ConcurrentHashMap@.clear)
        map().putAll(Collections.emptyMap()); //: w(ConcurrentHashMap@.clear)
        map().replaceAll((key, value) -> value); //: w(ConcurrentHashMap@.clear)
        ConcurrentMap<Object, Object> it = map();
        it.get("a"); //: r(ConcurrentHashMap@.clear) r(ConcurrentHashMap@.key#)
        ConcurrentSkipListMap<Object, Object> sorted = new ConcurrentSkipListMap<>();
        sorted.put("a", 1); //: r(ConcurrentSkipListMap@.clear) w(ConcurrentSkipListMap@.key#) w(ConcurrentSkipListMap@.all#)
        sorted.firstKey(); //: r(ConcurrentSkipListMap@.clear) r(ConcurrentSkipListMap@.all#) w(ConcurrentSkipListMap@.look#)
        sorted.lastKey(); //: r(ConcurrentSkipListMap@.clear) r(ConcurrentSkipListMap@.all#) w(ConcurrentSkipListMap@.look#)
        ConcurrentNavigableMap<Object, Object> navigable = sorted;
        navigable.get("a"); //: r(ConcurrentSkipListMap@.clear) r(ConcurrentSkipListMap@.key#)
    }

    static void mapsByTheirInterfaces() {
        Map<Object, Object> it;
        mapByItsInterface().get("a"); //: r(ConcurrentHashMap@.clear) r(ConcurrentHashMap@.key#)
        mapByItsInterface().containsKey("a"); //: r(ConcurrentHashMap@.clear) r(ConcurrentHashMap@.key#)
        mapByItsInterface().getOrDefault("a", 1); //: r(ConcurrentHashMap@.clear) r(ConcurrentHashMap@.key#)
        mapByItsInterface().put("a", 1); //: r(ConcurrentHashMap@.clear) w(ConcurrentHashMap@.key#) w(ConcurrentHashMap@.all#)
        mapByItsInterface().remove("a"); //: r(ConcurrentHashMap@.clear) r(ConcurrentHashMap@.key#)
        mapByItsInterface().replace("a", 1); //: r(ConcurrentHashMap@.clear) r(ConcurrentHashMap@.key#)
        mapByItsInterface().compute("a", (key, value) -> 1); //: r(ConcurrentHashMap@.clear) w(ConcurrentHashMap@.key#) w(ConcurrentHashMap@.all#)
        mapByItsInterface().computeIfPresent("a", (key, value) -> 1); //: r(ConcurrentHashMap@.clear) r(ConcurrentHashMap@.key#)
        mapByItsInterface().merge("a", 1, (one, two) -> 1); //: r(ConcurrentHashMap@.clear) w(ConcurrentHashMap@.key#) w(ConcurrentHashMap@.all#)
        mapByItsInterface().putIfAbsent("a", 1); //: r(ConcurrentHashMap@.clear) w(ConcurrentHashMap@.key#) w(ConcurrentHashMap@.all#)
        mapByItsInterface().computeIfAbsent("a", key -> 1); //: r(ConcurrentHashMap@.clear) w(ConcurrentHashMap@.key#) w(ConcurrentHashMap@.all#)
        it = filled();
        it.putIfAbsent("a", 1); //: r(ConcurrentHashMap@.clear) r(ConcurrentHashMap@.key#)
        it.computeIfAbsent("a", key -> 1); //: r(ConcurrentHashMap@.clear) r(ConcurrentHashMap@.key#)
        it = new ConcurrentSkipListMap<>(Collections.singletonMap("a", "b"));
        it.putIfAbsent("a", 1); //: r(ConcurrentSkipListMap@.clear) r(ConcurrentSkipListMap@.key#)
        it.computeIfAbsent("a", key -> 1); //: r(ConcurrentSkipListMap@.clear) r(ConcurrentSkipListMap@.key#)
        mapByItsInterface().size(); //: r(ConcurrentHashMap@.clear) w(ConcurrentHashMap@.look#)
        mapByItsInterface().isEmpty(); //: r(ConcurrentHashMap@.clear) w(ConcurrentHashMap@.look#)
        mapByItsInterface().keySet(); //: r(ConcurrentHashMap@.clear) w(ConcurrentHashMap@.look#)
        mapByItsInterface().values(); //: r(ConcurrentHashMap@.clear) w(ConcurrentHashMap@.look#)
        mapByItsInterface().entrySet(); //: r(ConcurrentHashMap@.clear) w(ConcurrentHashMap@.look#)
        mapByItsInterface().forEach((key, value) -> { }); //: r(ConcurrentHashMap@.clear) w(ConcurrentHashMap@.look#)
        mapByItsInterface().containsValue(1); //: r(ConcurrentHashMap@.clear) w(ConcurrentHashMap@.look#)
        mapByItsInterface().clear(); //: w(ConcurrentHashMap@.clear)
        mapByItsInterface().putAll(Collections.emptyMap()); //: w(ConcurrentHashMap@.clear)
        mapByItsInterface().replaceAll((key, value) -> value); //: w(ConcurrentHashMap@.clear)
        ConcurrentSkipListMap<Object, Object> sorted = new ConcurrentSkipListMap<>(Collections.singletonMap("a", "b"));
        SortedMap<Object, Object> first = sorted;
        first.firstKey(); //: r(ConcurrentSkipListMap@.clear) w(ConcurrentSkipListMap@.look#)
        first.lastKey(); //: r(ConcurrentSkipListMap@.clear) w(ConcurrentSkipListMap@.look#)
    }

    static Set<Object> keys() { return ConcurrentHashMap.newKeySet(); }

    static void keySets() {
        keys().add("a"); //: r(ConcurrentHashMap@.clear) w(ConcurrentHashMap@.key#) w(ConcurrentHashMap@.all#)
        keys().isEmpty(); //: r(ConcurrentHashMap@.clear) w(ConcurrentHashMap@.look#)
        keys().size(); //: r(ConcurrentHashMap@.clear) w(ConcurrentHashMap@.look#)
        keys().containsAll(ABC); //: r(ConcurrentHashMap@.clear) w(ConcurrentHashMap@.look#)
        keys().iterator(); //: r(ConcurrentHashMap@.clear) w(ConcurrentHashMap@.look#)
        keys().forEach(key -> { }); //: r(ConcurrentHashMap@.clear) w(ConcurrentHashMap@.look#)
        keys().toArray(); //: r(ConcurrentHashMap@.clear) w(ConcurrentHashMap@.look#)
        keys().stream(); //: r(ConcurrentHashMap@.clear) w(ConcurrentHashMap@.look#)
        keys().parallelStream(); //: r(ConcurrentHashMap@.clear) w(ConcurrentHashMap@.look#)
        keys().spliterator(); //: r(ConcurrentHashMap@.clear) w(ConcurrentHashMap@.look#)
        keys().contains("a"); //: r(ConcurrentHashMap@.clear) r(ConcurrentHashMap@.key#)
        keys().remove("a"); //: r(ConcurrentHashMap@.clear) r(ConcurrentHashMap@.key#)
        keys().clear(); //: w(ConcurrentHashMap@.clear)
        keys().removeAll(ABC); //: w(ConcurrentHashMap@.clear)
        keys().removeIf(key -> true); //: w(ConcurrentHashMap@.clear)
        keys().retainAll(ABC); //: w(ConcurrentHashMap@.clear)
        keys().addAll(ABC); //: w(ConcurrentHashMap@.clear)
        ConcurrentSkipListSet<Object> sorted = new ConcurrentSkipListSet<>(ABC);
        sorted.first(); //: r(ConcurrentSkipListSet@.clear) w(ConcurrentSkipListSet@.look#)
        sorted.last(); //: r(ConcurrentSkipListSet@.clear) w(ConcurrentSkipListSet@.look#)
        sorted.descendingIterator(); //: r(ConcurrentSkipListSet@.clear) w(ConcurrentSkipListSet@.look#)
    }

    // ---- collections for one thread

    enum Color { RED }

    static void plainMaps() {
        TreeMap<Object, Object> it = new TreeMap<>();
        it.put("a", 1); //: w(TreeMap@)
        it.get("a"); //: r(TreeMap@)
        it.containsKey("a"); //: r(TreeMap@)
        it.getOrDefault("a", 1); //: r(TreeMap@)
        it.replace("a", 1); //: w(TreeMap@)
        it.compute("a", (key, value) -> 1); //: w(TreeMap@)
        it.computeIfPresent("a", (key, value) -> 1); //: w(TreeMap@)
        it.merge("a", 1, (one, two) -> 1); //: w(TreeMap@)
        it.putIfAbsent("a", 1); //: w(TreeMap@)
        it.computeIfAbsent("a", key -> 1); //: w(TreeMap@)
        it.size(); //: r(TreeMap@)
        it.isEmpty(); //: r(TreeMap@)
        it.keySet(); //: r(TreeMap@)
        it.values(); //: r(TreeMap@)
        it.entrySet(); //: r(TreeMap@)
        it.forEach((key, value) -> { }); //: r(TreeMap@)
        it.containsValue(1); //: r(TreeMap@)
        it.firstKey(); //: r(TreeMap@)
        it.lastKey(); //: r(TreeMap@)
        it.headMap("b"); //: r(TreeMap@)
        it.tailMap("b"); //: r(TreeMap@)
        it.subMap("a", "b"); //: r(TreeMap@)
        it.floorKey("b"); //: r(TreeMap@)
        it.ceilingKey("b"); //: r(TreeMap@)
        it.higherKey("b"); //: r(TreeMap@)
        it.lowerKey("b"); //: r(TreeMap@)
        it.floorEntry("b"); //: r(TreeMap@)
        it.ceilingEntry("b"); //: r(TreeMap@)
        it.higherEntry("b"); //: r(TreeMap@)
        it.lowerEntry("b"); //: r(TreeMap@)
        it.firstEntry(); //: r(TreeMap@)
        it.lastEntry(); //: r(TreeMap@)
        it.pollFirstEntry(); //: w(TreeMap@)
        it.pollLastEntry(); //: w(TreeMap@)
        it.remove("a"); //: w(TreeMap@)
        it.putAll(Collections.emptyMap()); //: w(TreeMap@)
        it.replaceAll((key, value) -> value); //: w(TreeMap@)
        it.clear(); //: w(TreeMap@)
        Properties properties = new Properties();
        properties.setProperty("a", "b"); //: w(Properties@)
        properties.getProperty("a"); //: r(Properties@)
        Hashtable<Object, Object> table = properties;
        table.contains("a"); //: r(Properties@)
        table.elements(); //: r(Properties@)
        table.keys(); //: r(Properties@)
        new HashMap<Object, Object>().size(); //: r(HashMap@)
        new LinkedHashMap<Object, Object>().size(); //: r(LinkedHashMap@)
        new WeakHashMap<Object, Object>().size(); //: r(WeakHashMap@)
        new IdentityHashMap<Object, Object>().size(); //: r(IdentityHashMap@)
        new EnumMap<Color, Object>(Color.class).size(); //: r(EnumMap@)
        Map<Object, Object> map = it;
        map.size(); //: r(TreeMap@)
        SortedMap<Object, Object> sorted = it;
        sorted.size(); //: r(TreeMap@)
        NavigableMap<Object, Object> navigable = it;
        navigable.size(); //: r(TreeMap@)
        AbstractMap<Object, Object> base = it;
        base.size(); //: r(TreeMap@)
    }

    static void collections() {
        LinkedList<Object> it = new LinkedList<>(ABC);
        it.peek(); //: r(LinkedList@)
        it.element(); //: r(LinkedList@)
        it.peekFirst(); //: r(LinkedList@)
        it.peekLast(); //: r(LinkedList@)
        it.getFirst(); //: r(LinkedList@)
        it.getLast(); //: r(LinkedList@)
        it.offer("a"); //: w(LinkedList@)
        it.push("a"); //: w(LinkedList@)
        it.addFirst("a"); //: w(LinkedList@)
        it.addLast("a"); //: w(LinkedList@)
        it.offerFirst("a"); //: w(LinkedList@)
        it.offerLast("a"); //: w(LinkedList@)
        it.remove(); //: w(LinkedList@)
        it.pop(); //: w(LinkedList@)
        it.poll(); //: w(LinkedList@)
        it.removeFirst(); //: w(LinkedList@)
        it.removeLast(); //: w(LinkedList@)
        it.pollFirst(); //: w(LinkedList@)
        it.pollLast(); //: w(LinkedList@)
        it.add("a"); //: w(LinkedList@)
        it.isEmpty(); //: r(LinkedList@)
        it.size(); //: r(LinkedList@)
        it.containsAll(ABC); //: r(LinkedList@)
        it.iterator(); //: r(LinkedList@)
        it.descendingIterator(); //: r(LinkedList@)
        it.forEach(item -> { }); //: r(LinkedList@)
        it.toArray(); //: r(LinkedList@)
        it.stream(); //: r(LinkedList@)
        it.parallelStream(); //: r(LinkedList@)
        it.spliterator(); //: r(LinkedList@)
        it.contains("a"); //: r(LinkedList@)
        it.remove("d"); //: w(LinkedList@)
        it.removeFirstOccurrence("d"); //: w(LinkedList@)
        it.removeLastOccurrence("d"); //: w(LinkedList@)
        it.get(0); //: r(LinkedList@)
        it.listIterator(); //: r(LinkedList@)
        it.indexOf("a"); //: r(LinkedList@)
        it.lastIndexOf("a"); //: r(LinkedList@)
        it.subList(0, 1); //: r(LinkedList@)
        it.replaceAll(item -> item); //: w(LinkedList@)
        it.set(0, "b"); //: w(LinkedList@)
        it.sort(null); //: w(LinkedList@)
        it.removeAll(ABC); //: w(LinkedList@)
        it.removeIf(item -> true); //: w(LinkedList@)
        it.retainAll(ABC); //: w(LinkedList@)
        it.addAll(ABC); //: w(LinkedList@)
        it.clear(); //: w(LinkedList@)
        Vector<Object> vector = new Vector<>(ABC);
        vector.elements(); //: r(Vector@)
        vector.firstElement(); //: r(Vector@)
        vector.lastElement(); //: r(Vector@)
        vector.elementAt(0); //: r(Vector@)
        vector.copyInto(new Object[3]); //: r(Vector@)
        vector.addElement("d"); //: w(Vector@)
        vector.insertElementAt("d", 0); //: w(Vector@)
        vector.removeElement("d"); //: w(Vector@)
        vector.removeElementAt(0); //: w(Vector@)
        vector.setElementAt("d", 0); //: w(Vector@)
        vector.setSize(2); //: w(Vector@)
        vector.removeAllElements(); //: w(Vector@)
        TreeSet<Object> set = new TreeSet<>(ABC);
        set.first(); //: r(TreeSet@)
        set.last(); //: r(TreeSet@)
        set.headSet("b"); //: r(TreeSet@)
        set.tailSet("b"); //: r(TreeSet@)
        set.floor("b"); //: r(TreeSet@)
        set.ceiling("b"); //: r(TreeSet@)
        set.higher("b"); //: r(TreeSet@)
        set.lower("b"); //: r(TreeSet@)
        BitSet bits = new BitSet();
        bits.nextSetBit(0); //: r(BitSet@)
        bits.nextClearBit(0); //: r(BitSet@)
        bits.cardinality(); //: r(BitSet@)
        bits.length(); //: r(BitSet@)
        bits.flip(1); //: w(BitSet@)
        bits.and(bits); //: w(BitSet@)
        bits.or(bits); //: w(BitSet@)
        bits.xor(bits); //: w(BitSet@)
        bits.andNot(bits); //: w(BitSet@)
        CopyOnWriteArrayList<Object> copied = new CopyOnWriteArrayList<>();
        copied.addIfAbsent("a"); //: w(CopyOnWriteArrayList@)
        copied.addAllAbsent(ABC); //: w(CopyOnWriteArrayList@)
    }

    static void collectionsOfEachClass() {
        Collection<Object> collection = new ArrayList<>();
        collection.size(); //: r(ArrayList@)
        List<Object> list = new ArrayList<>();
        list.size(); //: r(ArrayList@)
        new ArrayList<>().size(); //: r(ArrayList@)
        new Stack<>().size(); //: r(Stack@)
        Set<Object> set = new HashSet<>();
        set.size(); //: r(HashSet@)
        new HashSet<>().size(); //: r(HashSet@)
        new LinkedHashSet<>().size(); //: r(LinkedHashSet@)
        new TreeSet<>().size(); //: r(TreeSet@)
        SortedSet<Object> sorted = new TreeSet<>();
        sorted.size(); //: r(TreeSet@)
        NavigableSet<Object> navigable = new TreeSet<>();
        navigable.size(); //: r(TreeSet@)
        Queue<Object> queue = new ArrayDeque<>();
        queue.size(); //: r(ArrayDeque@)
        Deque<Object> deque = new ArrayDeque<>();
        deque.size(); //: r(ArrayDeque@)
        new ArrayDeque<>().size(); //: r(ArrayDeque@)
        new PriorityQueue<>().size(); //: r(PriorityQueue@)
        AbstractList<Object> abstractList = new ArrayList<>();
        abstractList.size(); //: r(ArrayList@)
        AbstractSet<Object> abstractSet = new HashSet<>();
        abstractSet.size(); //: r(HashSet@)
        AbstractCollection<Object> abstractCollection = new ArrayList<>();
        abstractCollection.size(); //: r(ArrayList@)
        new CopyOnWriteArraySet<>().size(); //: r(CopyOnWriteArraySet@)
        ListIterator<Object> each = new ArrayList<>(ABC).listIterator(); //: r(ArrayList@)
        each.next();
        each.set("b"); //: w(ArrayList@)
        each.add("c"); //: w(ArrayList@)
        each.previous();
        each.remove(); //: w(ArrayList@)
        Iterator<Object> plain = new ArrayList<>(ABC).iterator(); //: r(ArrayList@)
        plain.next();
        plain.remove(); //: w(ArrayList@)
    }

    // ---- fields and elements by name

    static final VarHandle PLAIN;
    static final Unsafe UNSAFE;
    static final long OFFSET;
    static {
        try {
            PLAIN = MethodHandles.lookup().findVarHandle(Rows.class, "plain", int.class);
            Field unsafe = Unsafe.class.getDeclaredField("theUnsafe");
            unsafe.setAccessible(true);
            UNSAFE = (Unsafe) unsafe.get(null);
            OFFSET = UNSAFE.objectFieldOffset(Rows.class.getDeclaredField("plain"));
        } catch (ReflectiveOperationException wrong) {
            throw new AssertionError(wrong);
        }
    }

    static void handles() {
        Rows of = new Rows();
        int value = (int) PLAIN.get(of); //: r(Rows.plain@)
        value = (int) PLAIN.getVolatile(of); //: r(Rows.plain@)
        value = (int) PLAIN.getOpaque(of); //: r(Rows.plain@)
        value = (int) PLAIN.getAcquire(of); //: r(Rows.plain@)
        value = (int) PLAIN.getAndSet(of, 1); //: w(Rows.plain@)
        PLAIN.setOpaque(of, 0); //: w(Rows.plain@)
        value = (int) PLAIN.compareAndExchange(of, 0, 1); //: w(Rows.plain@)
        PLAIN.compareAndSet(of, 1, 0); //: w(Rows.plain@)
        PLAIN.weakCompareAndSet(of, 1, 0); //: r(Rows.plain@)
        UNSAFE.compareAndSwapInt(of, OFFSET, 1, 0); //: r(Rows.plain@)
        UNSAFE.getAndAddInt(of, OFFSET, 1); //: w(Rows.plain@)
        UNSAFE.putOrderedInt(of, OFFSET, 1); //: w(Rows.plain@)
        UNSAFE.getIntVolatile(of, OFFSET); //: r(Rows.plain@)
    }

    public static void main(String[] words) throws Exception {
        atomics();
        updaters();
        adders();
        addersOfTheProgram();
        accumulators();
        locksOfTheProgram();
        locks();
        stamps();
        synchronizers();
        joinWithinMonitor();
        queues();
        queuesOfEachClass();
        queuesByTheirInterfaces();
        maps();
        mapsByTheirInterfaces();
        keySets();
        plainMaps();
        collections();
        collectionsOfEachClass();
        handles();
    }
}
