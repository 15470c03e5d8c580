import java.util.AbstractList;
import java.util.ArrayList;
import java.util.Collections;
import java.util.Hashtable;
import java.util.List;
import java.util.Properties;
import java.util.Vector;
import java.util.concurrent.Semaphore;
import java.util.concurrent.atomic.AtomicInteger;
import java.util.concurrent.atomic.AtomicIntegerFieldUpdater;
import java.util.concurrent.atomic.AtomicReference;
import java.util.concurrent.atomic.AtomicStampedReference;
import java.util.concurrent.atomic.LongAccumulator;
import java.util.concurrent.atomic.LongAdder;

/**
 * Calls and accesses that wait for another thread, which logs something meanwhile: so they mustn't be made under the log's lock.
 * Each call comes to a method of the program, whose monitor the other thread has.
 */
public class Hanging {
    private static final AtomicIntegerFieldUpdater<Hanging> FIELD = AtomicIntegerFieldUpdater.newUpdater(Hanging.class, "field");
    int count;
    volatile int field;

    synchronized int bump() { return ++count; }
    @Override public synchronized String toString() { return "it"; }

    class Adder extends LongAdder {
        @Override public long sum() { return bump(); }
    }
    class Number extends AtomicInteger {
        @Override public int intValue() { return bump(); }
    }
    class Stamped extends AtomicStampedReference<Object> {
        Stamped() { super(null, 0); }
        @Override public int getStamp() { return bump(); }
    }
    class Permits extends Semaphore {
        Permits() { super(1); }
        @Override public int availablePermits() { return bump(); }
    }

    void whileHeld(Runnable calls) throws InterruptedException {
        Thread caller = new Thread(calls);
        synchronized (this) {
            caller.start();
            Meet.untilStuck(caller, Thread.State.BLOCKED);
            count++;
        }
        caller.join();
    }

    // ---- calls of collections that take no monitor, while another thread has that of the collection

    static void whileMonitorHeld(Object monitor, Runnable calls) throws InterruptedException {
        Thread caller = new Thread(calls);
        synchronized (monitor) {
            caller.start();
            caller.join(MOST_MILLISECONDS);
            if (caller.isAlive()) System.out.println("stuck");
        }
        caller.join();
    }
    private static final long MOST_MILLISECONDS = 15_000;

    /** Another vector that takes no monitor for its size. */
    static class Sized extends Vector<Object> {
        private static final long serialVersionUID = 1;
        @Override public int size() { return 3; }
    }
    /** It is asked for what it has before the monitor of what it is added to is taken: another thread can take that. */
    static class Added extends AbstractList<Object> {
        private final List<Object> to;

        Added(List<Object> to) { this.to = to; }
        @Override public int size() { return 0; }
        @Override public Object get(int index) { throw new IndexOutOfBoundsException(); }
        @Override public Object[] toArray() {
            Thread other = new Thread(() -> to.size());
            other.start();
            try {
                other.join(MOST_MILLISECONDS);
            } catch (InterruptedException impossible) {
                throw new AssertionError(impossible);
            }
            if (other.isAlive()) System.out.println("stuck");
            return new Object[0];
        }
    }

    static void collections() throws InterruptedException {
        List<Object> list = Collections.synchronizedList(new ArrayList<>());
        whileMonitorHeld(list, () -> {
            list.iterator();
            list.listIterator();
            list.stream();
        });
        Vector<Object> vector = new Vector<>();
        whileMonitorHeld(vector, () -> {
            vector.elements();
            vector.stream();
        });
        vector.addAll(new Added(vector));
        Hashtable<Object, Object> table = new Hashtable<>();
        whileMonitorHeld(table, () -> {
            table.keySet();
            table.entrySet();
            table.values();
        });
        Properties properties = new Properties();
        whileMonitorHeld(properties, () -> properties.getProperty("a"));
        Vector<Object> sized = new Sized();
        whileMonitorHeld(sized, () -> sized.size());
    }

    /** Its initializer starts a thread, and goes on while that waits for the class. */
    static class Starter {
        static int started;
        static final Thread ONE = start();

        static Thread start() {
            Thread one = new Thread(Starter::run);
            one.start();
            Meet.untilStuck(one, Thread.State.RUNNABLE);
            for (int waits = 0; waits < 100; waits++) Thread.yield();
            return name(one);
        }
        static Thread name(Thread one) {
            one.setName("one");
            return one;
        }
        static void run() { new Starter().count(); }
        private void count() { started++; }
    }
    /** The same, but that the thread is within a method of the class before. */
    static class Poller extends Thread {
        static final Poller ONE = new Poller();
        static final int LOADED = load();
        static int polls;

        Poller() { start(); }
        @Override public void run() { poll(); }
        private void poll() { polls++; }
        static int load() {
            long start = System.nanoTime();
            while (System.nanoTime() - start < 200_000_000L) Thread.yield();
            return parse("7");
        }
        static int parse(String number) { return Integer.parseInt(number); }
    }

    public static void main(String[] words) throws Exception {
        Hanging it = new Hanging();
        AtomicReference<Object> reference = new AtomicReference<>(it);
        it.whileHeld(() -> System.out.println(reference.toString()));
        LongAccumulator greatest = new LongAccumulator((a, b) -> it.bump(), 0);
        greatest.accumulate(1);
        it.whileHeld(() -> greatest.accumulate(2));
        it.whileHeld(() -> greatest.get());
        it.whileHeld(() -> greatest.getThenReset());
        LongAdder adder = it.new Adder();
        it.whileHeld(() -> adder.sum());
        AtomicInteger number = it.new Number();
        it.whileHeld(() -> number.intValue());
        it.whileHeld(() -> number.updateAndGet(value -> it.bump()));
        it.whileHeld(() -> number.getAndUpdate(value -> it.bump()));
        it.whileHeld(() -> number.accumulateAndGet(1, (value, one) -> it.bump()));
        it.whileHeld(() -> number.getAndAccumulate(1, (value, one) -> it.bump()));
        it.whileHeld(() -> FIELD.updateAndGet(it, value -> it.bump()));
        it.whileHeld(() -> FIELD.getAndUpdate(it, value -> it.bump()));
        it.whileHeld(() -> FIELD.accumulateAndGet(it, 1, (value, one) -> it.bump()));
        it.whileHeld(() -> FIELD.getAndAccumulate(it, 1, (value, one) -> it.bump()));
        AtomicStampedReference<Object> stamped = it.new Stamped();
        it.whileHeld(() -> stamped.getStamp());
        Semaphore permits = it.new Permits();
        it.whileHeld(() -> {
            permits.availablePermits();
            permits.release();
        });
        collections();
        Starter.ONE.join();
        Poller.ONE.join();
        System.out.println(Starter.started + " " + Poller.polls);
    }
}
