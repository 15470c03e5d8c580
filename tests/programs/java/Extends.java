import java.util.ArrayList;
import java.util.Collections;
import java.util.HashMap;
import java.util.List;
import java.util.Map;
import java.util.concurrent.ConcurrentHashMap;
import java.util.concurrent.ConcurrentMap;
import java.util.concurrent.CountDownLatch;
import java.util.concurrent.CyclicBarrier;
import java.util.concurrent.LinkedBlockingQueue;
import java.util.concurrent.Phaser;
import java.util.concurrent.Semaphore;
import java.util.concurrent.atomic.AtomicInteger;
import java.util.concurrent.atomic.AtomicIntegerArray;
import java.util.concurrent.atomic.AtomicReference;
import java.util.concurrent.atomic.AtomicReferenceArray;
import java.util.concurrent.locks.StampedLock;

/**
 * Classes of the program that extend classes of the JDK, called by their own types. Where such a class has the method itself, the
 * events are those of its code. Behind `//:` stand the events of each line, as in Rules.java.
 */
public class Extends {
    static int total;

    static class Counter extends AtomicInteger {
        void add(int count) { addAndGet(count); } //: w(Extends$Counter@)
        /** A method of the same name as one of AtomicInteger. */
        void set(String text) { total = text.length(); } //: w(Extends.total)
        void increment() {
            total++; //: r(Extends.total) w(Extends.total)
        }
    }
    static class Slots extends AtomicIntegerArray {
        Slots() { super(2); }
    }
    static class Table extends AtomicReferenceArray<Object> {
        Table() { super(2); }
    }
    /** It isn't an array, whatever its name. */
    static class CounterArray extends AtomicInteger { }

    static void atomics() {
        Counter it = new Counter();
        it.get(); //: r(Extends$Counter@)
        it.incrementAndGet(); //: w(Extends$Counter@)
        it.compareAndSet(7, 8); //: r(Extends$Counter@)
        it.intValue(); //: r(Extends$Counter@)
        it.add(2);
        it.set("four");
        it.increment();
        new Slots().set(1, 5); //: w(Extends$Slots@[1])
        new Table().get(0); //: r(Extends$Table@[0])
        AtomicIntegerArray byAbove = new Slots();
        byAbove.incrementAndGet(1); //: w(Extends$Slots@[1])
        CounterArray named = new CounterArray();
        named.set(1); //: w(Extends$CounterArray@)
        AtomicInteger byJdk = named;
        byJdk.set(0); //: w(Extends$CounterArray@)
        new AtomicReference<Object>() { }.set(it); //: w(Extends$1@)
    }

    static class Permits extends Semaphore {
        Permits() { super(0); }

        /** It gives two at once. */
        @Override public void release() {
            super.release(2); //: w(Extends$Permits@.permit#)
        }
    }
    static class Gate extends CountDownLatch {
        Gate() { super(1); }
    }
    static class Crossing extends CyclicBarrier {
        Crossing() { super(1); }
    }
    static class Stages extends Phaser {
        Stages() { super(1); }

        @Override protected boolean onAdvance(int phase, int parties) {
            total = phase; //: w(Extends.total)
            return false;
        }
    }
    static class Stamped extends StampedLock { }

    static void synchronizers() throws Exception {
        Permits permits = new Permits();
        permits.release();
        permits.acquire(2); //: r(Extends$Permits@.permit#)
        Semaphore byAbove = permits;
        byAbove.release();
        permits.acquireUninterruptibly(2); //: r(Extends$Permits@.permit#)
        Gate gate = new Gate();
        gate.countDown(); //: w(Extends$Gate@.all#)
        gate.await(); //: r(Extends$Gate@.all#)
        new Crossing().await(); //: w(Extends$Crossing@.meeting1.all#) r(Extends$Crossing@.meeting1.all#)
        Stages stages = new Stages();
        stages.arriveAndAwaitAdvance(); //: w(Extends$Stages@.phase0.all#) r(Extends$Stages@.phase0.all#)
        Stamped stamped = new Stamped();
        long stamp = stamped.writeLock(); //: w(Extends$Stamped@)
        stamped.unlock(stamp); //: w(Extends$Stamped@)
        stamp = stamped.readLock(); //: r(Extends$Stamped@)
        stamped.unlock(stamp); //: r(Extends$Stamped@)
    }

    /** Its own method has the monitor before it adds. */
    static class Names extends ArrayList<String> {
        @Override public synchronized boolean add(String name) {
            return super.add(name); //: acq(Extends$Names@) w(Extends$Names@) rel(Extends$Names@)
        }
    }
    static class Cache extends ConcurrentHashMap<String, String> {
        String load(String key) { return computeIfAbsent(key, one -> one); } //: r(Extends$Cache@.clear) w(Extends$Cache@.key#) w(Extends$Cache@.all#)
        @Override public String put(String key, String value) {
            return super.put(key, value + total); //: r(Extends.total) r(Extends$Cache@.clear) w(Extends$Cache@.key#) w(Extends$Cache@.all#)
        }
    }
    /** An interface that extends one of the JDK. */
    interface Counts extends ConcurrentMap<String, Integer> {
        default int count(String key) { return getOrDefault(key, 0); } //: r(Extends$Numbers@.clear) r(Extends$Numbers@.key#)
    }
    static class Numbers extends ConcurrentHashMap<String, Integer> implements Counts { }
    static class Mailbox extends LinkedBlockingQueue<String> { }
    /** Its name is that of a class of views. */
    static class Values extends ConcurrentHashMap<String, String> { }
    static class Counting extends HashMap<String, Integer> { }
    static class CountingTwice extends Counting {
        @Override public Integer get(Object key) {
            return super.get(key); //: r(Extends$CountingTwice@)
        }
    }

    static void collections() {
        Names names = new Names();
        names.add("a");
        List<String> list = names;
        list.add("b");
        names.size(); //: r(Extends$Names@)
        Collections.synchronizedList(names).size(); //: r(Extends$Names@)
        Cache cache = new Cache();
        cache.load("a");
        cache.get("a"); //: r(Extends$Cache@.clear) r(Extends$Cache@.key#)
        cache.put("b", "c");
        Map<String, String> map = cache;
        map.put("d", "e");
        Counts counts = new Numbers();
        counts.put("a", 1); //: r(Extends$Numbers@.clear) w(Extends$Numbers@.key#) w(Extends$Numbers@.all#)
        counts.count("a");
        Mailbox mailbox = new Mailbox();
        mailbox.add("a"); //: w(Extends$Mailbox@.item#)
        mailbox.poll(); //: r(Extends$Mailbox@.item#)
        Map<String, String> values = new Values();
        values.put("a", "b"); //: r(Extends$Values@.clear) w(Extends$Values@.key#) w(Extends$Values@.all#)
        Counting counting = new Counting();
        counting.put("a", 1); //: w(Extends$Counting@)
        counting.get("a"); //: r(Extends$Counting@)
        new CountingTwice().get("a");
        new CountingTwice().put("a", 1); //: w(Extends$CountingTwice@)
    }

    public static void main(String[] words) throws Exception {
        atomics();
        synchronizers();
        collections();
    }
}
