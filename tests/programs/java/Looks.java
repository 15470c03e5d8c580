import java.util.ArrayList;
import java.util.Arrays;
import java.util.Collection;
import java.util.HashSet;
import java.util.Iterator;
import java.util.List;
import java.util.Queue;
import java.util.concurrent.BlockingQueue;
import java.util.concurrent.ConcurrentHashMap;
import java.util.concurrent.ConcurrentLinkedQueue;
import java.util.concurrent.ConcurrentMap;
import java.util.concurrent.CopyOnWriteArrayList;
import java.util.concurrent.LinkedBlockingQueue;

/** Blocks that look at a queue or a collection and then act, or look again; the other thread changes it in between. */
public class Looks {
    final Queue<Object> empty = new ConcurrentLinkedQueue<>();
    final BlockingQueue<Object> none = new LinkedBlockingQueue<>(), few = new LinkedBlockingQueue<>();
    final Queue<Object> two = new ConcurrentLinkedQueue<>(Arrays.asList("a", "b"));
    final Queue<Object> one = new ConcurrentLinkedQueue<>(Arrays.asList("a"));
    final BlockingQueue<Object> drained = new LinkedBlockingQueue<>(Arrays.asList("a", "b"));
    final CopyOnWriteArrayList<Object> copied = new CopyOnWriteArrayList<>();
    final List<Object> list = new ArrayList<>(Arrays.asList("a", "b"));
    final Collection<Object> set = new HashSet<>(Arrays.asList("a", "b"));
    final ConcurrentMap<Object, Object> map = new ConcurrentHashMap<>(), other = new ConcurrentHashMap<>();

    // ---- both threads

    void putIfEmpty() {
        boolean isEmpty = empty.isEmpty();
        Meet.both();
        if (isEmpty) empty.add(this);
    }
    void putIfNone() {
        Object found = none.poll();
        Meet.both();
        if (found == null) none.offer(this);
    }
    void putIfFew() {
        int size = few.size();
        Meet.both();
        if (size < 1) few.add(this);
    }

    // ---- one thread, while the other changes it

    /** The other thread has done between. */
    static void untilChanged() {
        Meet.both();
        Meet.both();
    }
    static void change(Runnable change) {
        Meet.both();
        change.run();
        Meet.both();
    }

    void takeSeen() {
        Object seen = two.peek();
        untilChanged();
        if (two.poll() == seen) throw new AssertionError();
    }
    void takeIfThere() {
        boolean isThere = !one.isEmpty();
        untilChanged();
        if (isThere) one.poll();
    }
    void peekTwice() {
        Object seen = drained.peek();
        untilChanged();
        if (drained.peek() == seen) throw new AssertionError();
    }
    void countCopied() { countTwice(copied); }
    void countList() { countTwice(list); }
    void countSet() { countTwice(set); }
    /** A thread that is started after the first look puts a key. */
    void countMap() {
        int size = map.size();
        untilChanged();
        if (map.size() == size) throw new AssertionError();
    }
    void putIfSmall() {
        int size = other.size();
        untilChanged();
        if (size < 1) other.put("a", this);
        other.get("b");
    }
    private static void countTwice(Collection<Object> all) {
        int size = all.size();
        untilChanged();
        if (all.size() == size) throw new AssertionError();
    }

    static void removeByIterator(Collection<Object> all) {
        Iterator<Object> each = all.iterator();
        each.next();
        each.remove();
    }

    /** By a thread of its own. */
    static void put(ConcurrentMap<Object, Object> map, Object key) {
        Thread late = new Thread(() -> map.put(key, key));
        late.start();
        try {
            late.join();
        } catch (InterruptedException impossible) {
            throw new AssertionError(impossible);
        }
    }

    public static void main(String[] words) throws Exception {
        Looks it = new Looks();
        Meet.run(2, me -> {
            it.putIfEmpty();
            it.putIfNone();
            it.putIfFew();
            if (me == 0) {
                it.takeSeen();
                it.takeIfThere();
                it.peekTwice();
                it.countCopied();
                it.countList();
                it.countSet();
                it.countMap();
                it.putIfSmall();
            } else {
                change(it.two::poll);
                change(it.one::poll);
                change(() -> it.drained.drainTo(new ArrayList<>()));
                change(() -> it.copied.addIfAbsent("a"));
                change(() -> removeByIterator(it.list));
                change(() -> removeByIterator(it.set));
                for (ConcurrentMap<Object, Object> map : Arrays.asList(it.map, it.other)) {
                    Meet.both();
                    put(map, "b");
                    Meet.both();
                }
            }
        });
        System.out.println(it.empty.size() + " " + it.none.size() + " " + it.few.size());
    }
}
