import java.math.BigDecimal;
import java.util.ArrayList;
import java.util.Arrays;
import java.util.Collection;
import java.util.Collections;
import java.util.Comparator;
import java.util.Iterator;
import java.util.List;
import java.util.Map;
import java.util.Set;
import java.util.TreeMap;
import java.util.Vector;
import java.util.concurrent.ArrayBlockingQueue;
import java.util.concurrent.ConcurrentHashMap;
import java.util.concurrent.ConcurrentLinkedDeque;
import java.util.concurrent.ConcurrentLinkedQueue;
import java.util.concurrent.ConcurrentSkipListMap;
import java.util.concurrent.ConcurrentSkipListSet;
import java.util.concurrent.CopyOnWriteArrayList;
import java.util.concurrent.CopyOnWriteArraySet;
import java.util.concurrent.CyclicBarrier;
import java.util.concurrent.DelayQueue;
import java.util.concurrent.Delayed;
import java.util.concurrent.LinkedBlockingDeque;
import java.util.concurrent.LinkedBlockingQueue;
import java.util.concurrent.LinkedTransferQueue;
import java.util.concurrent.PriorityBlockingQueue;
import java.util.concurrent.SynchronousQueue;
import java.util.concurrent.TimeUnit;
import java.util.concurrent.TimeoutException;
import java.util.concurrent.atomic.AtomicInteger;
import java.util.concurrent.atomic.AtomicIntegerArray;
import java.util.concurrent.atomic.AtomicIntegerFieldUpdater;
import java.util.concurrent.atomic.AtomicLong;
import java.util.concurrent.atomic.AtomicReference;
import java.util.concurrent.locks.Condition;
import java.util.concurrent.locks.Lock;
import java.util.concurrent.locks.ReentrantLock;
import java.util.concurrent.locks.ReentrantReadWriteLock;
import java.util.concurrent.locks.StampedLock;

/**
 * Calls that find nothing to change, that are refused, or that throw, each beside one that does change something: behind `//:` stand
 * the events of each line, as in Rules.java. A line that has none there logs none.
 */
public class Vain {
    static final List<Object> AB = Arrays.asList("a", "b");

    interface Call {
        void make() throws Exception;
    }
    /** Makes a call that throws. */
    static void fails(Call call) {
        try {
            call.make();
        } catch (Exception wanted) {
            return;
        }
        throw new AssertionError("it didn't fail");
    }
    static void byAnother(Call call) throws Exception {
        Throwable[] failed = new Throwable[1];
        Thread other = new Thread(() -> {
            try {
                call.make();
            } catch (Exception wrong) {
                failed[0] = wrong;
            }
        });
        other.start();
        other.join();
        if (failed[0] != null) //: r(Throwable[]@[0])
            throw new AssertionError(failed[0]);
    }
    static void is(boolean isTrue) {
        if (!isTrue) throw new AssertionError("not what was wanted");
    }

    // ---- maps and sets for several threads

    static ConcurrentHashMap<Object, Object> map() { return new ConcurrentHashMap<>(Collections.singletonMap("a", "b")); }
    static ConcurrentSkipListMap<Object, Object> sorted() { return new ConcurrentSkipListMap<>(Collections.singletonMap("a", "b")); }

    static void maps() {
        is(map().remove("c") == null); //: r(ConcurrentHashMap@.clear) r(ConcurrentHashMap@.key#)
        is(map().remove("a") == "b"); //: r(ConcurrentHashMap@.clear) w(ConcurrentHashMap@.key#) w(ConcurrentHashMap@.all#)
        is(!map().remove("a", "c")); //: r(ConcurrentHashMap@.clear) r(ConcurrentHashMap@.key#)
        is(!map().remove("a", null)); //: r(ConcurrentHashMap@.clear) r(ConcurrentHashMap@.key#)
        is(map().remove("a", "b")); //: r(ConcurrentHashMap@.clear) w(ConcurrentHashMap@.key#) w(ConcurrentHashMap@.all#)
        is(map().replace("c", "d") == null); //: r(ConcurrentHashMap@.clear) r(ConcurrentHashMap@.key#)
        is(map().replace("a", "d") == "b"); //: r(ConcurrentHashMap@.clear) w(ConcurrentHashMap@.key#) w(ConcurrentHashMap@.all#)
        is(!map().replace("a", "c", "d")); //: r(ConcurrentHashMap@.clear) r(ConcurrentHashMap@.key#)
        is(map().replace("a", "b", "d")); //: r(ConcurrentHashMap@.clear) w(ConcurrentHashMap@.key#) w(ConcurrentHashMap@.all#)
        is(map().keySet().remove("a")); //: r(ConcurrentHashMap@.clear) w(ConcurrentHashMap@.look#) r(ConcurrentHashMap@.clear) r(ConcurrentHashMap@.look#) w(ConcurrentHashMap@.key#) w(ConcurrentHashMap@.all#)
        is(map().values().remove("b")); //: r(ConcurrentHashMap@.clear) w(ConcurrentHashMap@.look#) w(ConcurrentHashMap@.clear)
        is(!map().values().remove("c")); //: r(ConcurrentHashMap@.clear) w(ConcurrentHashMap@.look#) r(ConcurrentHashMap@.clear) w(ConcurrentHashMap@.look#)
        fails(() -> map().remove(null));
        is(sorted().remove("c") == null); //: r(ConcurrentSkipListMap@.clear) r(ConcurrentSkipListMap@.key#)
        is(sorted().remove("a") == "b"); //: r(ConcurrentSkipListMap@.clear) w(ConcurrentSkipListMap@.key#) w(ConcurrentSkipListMap@.all#)
        is(!sorted().remove("a", "c")); //: r(ConcurrentSkipListMap@.clear) r(ConcurrentSkipListMap@.key#)
        is(sorted().remove("a", "b")); //: r(ConcurrentSkipListMap@.clear) w(ConcurrentSkipListMap@.key#) w(ConcurrentSkipListMap@.all#)
        is(!sorted().replace("a", "c", "d")); //: r(ConcurrentSkipListMap@.clear) r(ConcurrentSkipListMap@.key#)
        is(sorted().replace("a", "b", "d")); //: r(ConcurrentSkipListMap@.clear) w(ConcurrentSkipListMap@.key#) w(ConcurrentSkipListMap@.all#)
        is(sorted().computeIfPresent("c", (key, value) -> 1) == null); //: r(ConcurrentSkipListMap@.clear) r(ConcurrentSkipListMap@.key#)
        is(sorted().pollFirstEntry() != null); //: w(ConcurrentSkipListMap@.clear)
        is(sorted().tailMap("b").pollLastEntry() == null); //: r(ConcurrentSkipListMap@.clear) w(ConcurrentSkipListMap@.look#) r(ConcurrentSkipListMap@.clear) w(ConcurrentSkipListMap@.look#)
        Map<Object, Object> plain = new TreeMap<>();
        is(!plain.remove("a", "b")); //: w(TreeMap@)
    }

    static void sets() {
        Set<Object> keys = ConcurrentHashMap.newKeySet();
        is(!keys.remove("a")); //: r(ConcurrentHashMap@.clear) r(ConcurrentHashMap@.key#)
        is(keys.add("a")); //: r(ConcurrentHashMap@.clear) w(ConcurrentHashMap@.key#) w(ConcurrentHashMap@.all#)
        is(keys.remove("a")); //: r(ConcurrentHashMap@.clear) w(ConcurrentHashMap@.key#) w(ConcurrentHashMap@.all#)
        ConcurrentSkipListSet<Object> it = new ConcurrentSkipListSet<>();
        is(it.pollFirst() == null); //: r(ConcurrentSkipListSet@.clear) w(ConcurrentSkipListSet@.look#)
        fails(() -> it.first()); //: r(ConcurrentSkipListSet@.clear) w(ConcurrentSkipListSet@.look#)
        is(new ConcurrentSkipListSet<>(AB).pollLast() == "b"); //: w(ConcurrentSkipListSet@.clear)
        CopyOnWriteArrayList<Object> list = new CopyOnWriteArrayList<>(AB);
        is(!list.addIfAbsent("a")); //: r(CopyOnWriteArrayList@)
        is(list.addIfAbsent("c")); //: w(CopyOnWriteArrayList@)
        is(!list.remove("d")); //: r(CopyOnWriteArrayList@)
        is(list.remove("c")); //: w(CopyOnWriteArrayList@)
        is(list.remove(1) == "b"); //: w(CopyOnWriteArrayList@)
        is(list.add("a")); //: w(CopyOnWriteArrayList@)
        CopyOnWriteArraySet<Object> set = new CopyOnWriteArraySet<>(AB);
        is(!set.add("a")); //: r(CopyOnWriteArraySet@)
        is(set.add("c")); //: w(CopyOnWriteArraySet@)
        is(!set.remove("d")); //: r(CopyOnWriteArraySet@)
        is(set.remove("c")); //: w(CopyOnWriteArraySet@)
    }

    static void unmodifiable() {
        List<Object> list = new ArrayList<>(AB);
        List<Object> seen = Collections.unmodifiableList(list);
        fails(() -> seen.add("c"));
        fails(() -> seen.subList(0, 1).clear()); //: r(ArrayList@)
        fails(() -> Collections.synchronizedList(seen).remove("a"));
        seen.contains("a"); //: r(ArrayList@)
        Iterator<Object> each = seen.iterator(); //: r(ArrayList@)
        each.next();
        fails(() -> each.remove());
        ConcurrentHashMap<Object, Object> map = map();
        Map<Object, Object> shown = Collections.unmodifiableMap(map);
        fails(() -> shown.put("a", "c"));
        fails(() -> shown.compute("a", (key, value) -> "c"));
        fails(() -> shown.keySet().remove("a")); //: r(ConcurrentHashMap@.clear) w(ConcurrentHashMap@.look#)
        shown.get("a"); //: r(ConcurrentHashMap@.clear) r(ConcurrentHashMap@.key#)
        Collection<Object> queue = Collections.unmodifiableCollection(new ConcurrentLinkedQueue<>(AB));
        fails(() -> queue.add("c"));
        fails(() -> queue.clear());
    }

    /** A key that is compared as its class says. */
    enum Color { RED }
    static class Named implements Comparable<Named> {
        @Override public int compareTo(Named other) { return 0; }
    }

    static void comparators() {
        ConcurrentSkipListMap<Object, Object> natural = new ConcurrentSkipListMap<>();
        natural.get("a"); //: r(ConcurrentSkipListMap@.clear) r(ConcurrentSkipListMap@.key#)
        new ConcurrentSkipListMap<>().get(Color.RED); //: r(ConcurrentSkipListMap@.clear) r(ConcurrentSkipListMap@.key@)
        new ConcurrentSkipListMap<>().get(new Named()); //: r(ConcurrentSkipListMap@.clear) r(ConcurrentSkipListMap@.key)
        new ConcurrentSkipListMap<>().get(BigDecimal.ONE); //: r(ConcurrentSkipListMap@.clear) r(ConcurrentSkipListMap@.key)
        new ConcurrentHashMap<>().get(BigDecimal.ONE); //: r(ConcurrentHashMap@.clear) r(ConcurrentHashMap@.key#.BigDecimal)
        ConcurrentSkipListMap<String, Object> cased = new ConcurrentSkipListMap<>(String.CASE_INSENSITIVE_ORDER);
        cased.get("a"); //: r(ConcurrentSkipListMap@.clear) r(ConcurrentSkipListMap@.key)
        cased.headMap("b").get("a"); //: r(ConcurrentSkipListMap@.clear) w(ConcurrentSkipListMap@.look#) r(ConcurrentSkipListMap@.clear) r(ConcurrentSkipListMap@.key)
        new ConcurrentSkipListSet<>(Comparator.comparing(String::length)).contains("a"); //: r(ConcurrentSkipListSet@.clear) r(ConcurrentSkipListSet@.key)
        new ConcurrentSkipListSet<String>(Collections.reverseOrder()).contains("a"); //: r(ConcurrentSkipListSet@.clear) r(ConcurrentSkipListSet@.key#)
        new ConcurrentSkipListSet<String>(Comparator.naturalOrder()).contains("a"); //: r(ConcurrentSkipListSet@.clear) r(ConcurrentSkipListSet@.key#)
    }

    // ---- reads that throw

    static void reads() {
        fails(() -> new ArrayList<>().get(0)); //: r(ArrayList@)
        fails(() -> new Vector<>().elementAt(0)); //: r(Vector@)
        fails(() -> new Vector<>().firstElement()); //: r(Vector@)
        fails(() -> new TreeMap<>().firstKey()); //: r(TreeMap@)
        fails(() -> new ArrayList<>(AB).forEach(one -> one.notify())); //: r(ArrayList@)
        fails(() -> new ConcurrentSkipListMap<>().lastKey()); //: r(ConcurrentSkipListMap@.clear) w(ConcurrentSkipListMap@.look#)
        fails(() -> map().computeIfAbsent("c", key -> (String) (Object) AB)); //: r(ConcurrentHashMap@.clear) r(ConcurrentHashMap@.key#)
        fails(() -> map().forEach((key, value) -> key.notify())); //: r(ConcurrentHashMap@.clear) w(ConcurrentHashMap@.look#)
        fails(() -> new ConcurrentLinkedQueue<>(AB).forEach(one -> one.notify())); //: w(ConcurrentLinkedQueue@.none#) w(ConcurrentLinkedQueue@.head#)
        fails(() -> map().get(null));
    }

    // ---- queues

    static class Later implements Delayed {
        final long hours;

        Later(long hours) { this.hours = hours; }

        @Override public long getDelay(TimeUnit unit) { return unit.convert(hours, TimeUnit.HOURS); }
        @Override public int compareTo(Delayed other) { return Long.compare(hours, ((Later) other).hours); }
    }

    static LinkedBlockingDeque<Object> full() {
        LinkedBlockingDeque<Object> it = new LinkedBlockingDeque<>(1);
        it.add("a"); //: w(LinkedBlockingDeque@.item#)
        return it;
    }

    static void refusals() throws Exception {
        is(!full().offer("b")); //: w(LinkedBlockingDeque@.head#)
        is(!full().offer("b", 1, TimeUnit.NANOSECONDS)); //: w(LinkedBlockingDeque@.head#)
        is(!full().offerFirst("b")); //: w(LinkedBlockingDeque@.head#)
        fails(() -> full().add("b")); //: w(LinkedBlockingDeque@.head#)
        fails(() -> full().addFirst("b")); //: w(LinkedBlockingDeque@.head#)
        fails(() -> full().push("b")); //: w(LinkedBlockingDeque@.head#)
        fails(() -> full().offer(null));
        LinkedBlockingDeque<Object> it = full();
        Thread.currentThread().interrupt();
        fails(() -> it.put("b"));
        is(!it.addAll(Collections.emptyList()));
        is(!new SynchronousQueue<>().offer("a"));
        LinkedTransferQueue<Object> transfers = new LinkedTransferQueue<>();
        is(!transfers.tryTransfer("a", 1, TimeUnit.NANOSECONDS));
    }

    static void takes() throws Exception {
        is(!full().remove("b")); //: w(LinkedBlockingDeque@.none#)
        is(!full().removeLastOccurrence("b")); //: w(LinkedBlockingDeque@.none#)
        is(!full().removeIf(item -> item != "a")); //: w(LinkedBlockingDeque@.none#)
        is(full().removeIf(item -> item == "a")); //: r(LinkedBlockingDeque@.item#) w(LinkedBlockingDeque@.none#)
        is(full().drainTo(new ArrayList<>(), 1) == 1); //: r(LinkedBlockingDeque@.item#)
        is(full().contains("a")); //: w(LinkedBlockingDeque@.head#)
        is(!full().contains("b")); //: w(LinkedBlockingDeque@.none#)
        LinkedBlockingQueue<Object> it = new LinkedBlockingQueue<>();
        it.add("a"); //: w(LinkedBlockingQueue@.item#)
        it.add("b"); //: w(LinkedBlockingQueue@.item#)
        is(it.removeIf(item -> item == "a")); //: r(LinkedBlockingQueue@.item#) w(LinkedBlockingQueue@.none#)
        is(it.poll() == "b"); //: r(LinkedBlockingQueue@.item#)
        it.add("a"); //: w(LinkedBlockingQueue@.item#)
        it.clear(); //: r(LinkedBlockingQueue@.item#) w(LinkedBlockingQueue@.none#)
        byAnother(() -> it.add("c")); //: r(LinkedBlockingQueue@.none#) w(LinkedBlockingQueue@.item#)
        DelayQueue<Later> delayed = new DelayQueue<>();
        is(delayed.poll() == null); //: w(DelayQueue@.none#)
        delayed.add(new Later(1)); //: w(DelayQueue@.item#)
        is(delayed.poll() == null);
        is(delayed.poll(1, TimeUnit.NANOSECONDS) == null);
        fails(() -> delayed.remove());
        is(delayed.drainTo(new ArrayList<>()) == 0);
        is(delayed.peek() != null); //: r(DelayQueue@.item#) w(DelayQueue@.head#) w(DelayQueue@.first#)
    }

    /** Puts by another thread that change what stands at an end, and others that don't. */
    static void ends() throws Exception {
        ConcurrentLinkedDeque<Object> it = new ConcurrentLinkedDeque<>(AB);
        it.isEmpty(); //: w(ConcurrentLinkedDeque@.head#)
        byAnother(() -> it.addFirst("c")); //: w(ConcurrentLinkedDeque@.item#)
        it.peekFirst(); //: r(ConcurrentLinkedDeque@.item#) w(ConcurrentLinkedDeque@.head#) w(ConcurrentLinkedDeque@.first#)
        byAnother(() -> it.add("d")); //: w(ConcurrentLinkedDeque@.item#)
        byAnother(() -> it.push("e")); //: r(ConcurrentLinkedDeque@.first#) w(ConcurrentLinkedDeque@.item#)
        it.getLast(); //: r(ConcurrentLinkedDeque@.item#) w(ConcurrentLinkedDeque@.head#) w(ConcurrentLinkedDeque@.last#)
        byAnother(() -> it.offerLast("f")); //: r(ConcurrentLinkedDeque@.last#) w(ConcurrentLinkedDeque@.item#)
        PriorityBlockingQueue<Integer> sorted = new PriorityBlockingQueue<>(Collections.singletonList(5));
        sorted.peek(); //: w(PriorityBlockingQueue@.head#) w(PriorityBlockingQueue@.first#)
        byAnother(() -> sorted.add(6)); //: w(PriorityBlockingQueue@.item#)
        byAnother(() -> sorted.add(4)); //: w(PriorityBlockingQueue@.item#) r(PriorityBlockingQueue@.first#)
        DelayQueue<Later> delayed = new DelayQueue<>(Collections.singletonList(new Later(2)));
        delayed.peek(); //: w(DelayQueue@.head#) w(DelayQueue@.first#)
        byAnother(() -> delayed.put(new Later(3))); //: w(DelayQueue@.item#)
        byAnother(() -> delayed.put(new Later(1))); //: w(DelayQueue@.item#) r(DelayQueue@.first#)
    }

    // ---- atomics, locks and barriers

    volatile int number;
    static final AtomicIntegerFieldUpdater<Vain> NUMBER = AtomicIntegerFieldUpdater.newUpdater(Vain.class, "number");

    static void updates() {
        AtomicInteger number = new AtomicInteger();
        fails(() -> number.updateAndGet(value -> 1 / value)); //: r(AtomicInteger@)
        fails(() -> number.getAndAccumulate(0, (one, two) -> one / two)); //: r(AtomicInteger@)
        fails(() -> number.updateAndGet(null)); //: r(AtomicInteger@)
        number.getAndAccumulate(1, (one, two) -> one + two); //: w(AtomicInteger@)
        AtomicLong wide = new AtomicLong();
        fails(() -> wide.getAndUpdate(value -> 1 / value)); //: r(AtomicLong@)
        fails(() -> wide.accumulateAndGet(0, (one, two) -> one / two)); //: r(AtomicLong@)
        wide.updateAndGet(value -> 1); //: w(AtomicLong@)
        wide.accumulateAndGet(1, (one, two) -> two); //: w(AtomicLong@)
        AtomicReference<String> text = new AtomicReference<>();
        fails(() -> text.updateAndGet(value -> value.trim())); //: r(AtomicReference@)
        fails(() -> text.accumulateAndGet("a", (one, two) -> one.trim())); //: r(AtomicReference@)
        text.getAndUpdate(value -> "b"); //: w(AtomicReference@)
        text.accumulateAndGet("a", (one, two) -> two); //: w(AtomicReference@)
        AtomicIntegerArray numbers = new AtomicIntegerArray(2);
        fails(() -> numbers.updateAndGet(1, value -> 1 / value)); //: r(AtomicIntegerArray@[1])
        Vain it = new Vain();
        fails(() -> NUMBER.getAndUpdate(it, value -> 1 / value)); //: r(Vain.number@)
        NUMBER.accumulateAndGet(it, 1, (one, two) -> two); //: w(Vain.number@)
    }

    static void locks() {
        ReentrantReadWriteLock both = new ReentrantReadWriteLock();
        Lock reader = both.readLock(), writer = both.writeLock();
        fails(() -> reader.unlock());
        fails(() -> writer.unlock());
        Condition condition = writer.newCondition(), own = new ReentrantLock().newCondition();
        fails(() -> condition.await());
        fails(() -> own.await());
        writer.lock(); //: w(rw.ReentrantReadWriteLock$NonfairSync@)
        fails(() -> reader.unlock());
        writer.unlock(); //: w(rw.ReentrantReadWriteLock$NonfairSync@)
        StampedLock stamped = new StampedLock();
        fails(() -> stamped.asReadLock().unlock());
        fails(() -> stamped.asWriteLock().unlock());
        long old = stamped.writeLock(); //: w(StampedLock@)
        stamped.unlockWrite(old); //: w(StampedLock@)
        fails(() -> stamped.unlockWrite(old));
        fails(() -> stamped.unlock(old));
        is(stamped.tryConvertToReadLock(old) == 0);
        long stamp = stamped.readLock(); //: r(StampedLock@)
        stamped.unlockRead(stamp); //: r(StampedLock@)
    }

    static void barriers() throws Exception {
        CyclicBarrier it = new CyclicBarrier(1);
        it.await(); //: w(CyclicBarrier@.meeting1.all#) r(CyclicBarrier@.meeting1.all#)
        it.await(); //: w(CyclicBarrier@.meeting2.all#) r(CyclicBarrier@.meeting2.all#)
        CyclicBarrier left = new CyclicBarrier(2);
        try {
            left.await(1, TimeUnit.NANOSECONDS); //: w(CyclicBarrier@.meeting1.all#)
            throw new AssertionError();
        } catch (TimeoutException wanted) {
            left.reset();
        }
    }

    public static void main(String[] words) throws Exception {
        maps();
        sets();
        unmodifiable();
        comparators();
        reads();
        refusals();
        takes();
        ends();
        updates();
        locks();
        barriers();
    }
}
