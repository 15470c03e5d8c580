import java.util.ArrayList;
import java.util.Arrays;
import java.util.List;
import java.util.Queue;
import java.util.Random;
import java.util.Set;
import java.util.concurrent.BlockingQueue;
import java.util.concurrent.ConcurrentHashMap;
import java.util.concurrent.ConcurrentLinkedQueue;
import java.util.concurrent.LinkedBlockingQueue;
import java.util.concurrent.Semaphore;
import java.util.concurrent.locks.StampedLock;

/** Threads that make calls at random. Each call is in a block of its own, so each block is atomic, in whatever order they come. */
public class Singles {
    private static final int THREADS = 6, ROUNDS = 3000;
    private static final Object[] ITEMS = {"a", "b", 1, 2};

    final BlockingQueue<Object> full = new LinkedBlockingQueue<>(8);
    final Queue<Object> linked = new ConcurrentLinkedQueue<>();
    final Semaphore permits = new Semaphore(2);
    final StampedLock lock = new StampedLock();
    final ConcurrentHashMap<String, Integer> map = new ConcurrentHashMap<>();
    final Set<String> keys = ConcurrentHashMap.newKeySet();

    interface Single {
        void call(Object item, String key);
    }
    final List<Single> singles = Arrays.asList(
            (item, key) -> full.offer(item), (item, key) -> full.add(item), (item, key) -> full.poll(), (item, key) -> full.remove(),
            (item, key) -> full.peek(), (item, key) -> full.isEmpty(), (item, key) -> full.size(), (item, key) -> full.remove(item),
            (item, key) -> full.clear(), (item, key) -> full.drainTo(new ArrayList<>()), (item, key) -> full.contains(item),
            (item, key) -> linked.add(item), (item, key) -> linked.poll(), (item, key) -> linked.element(),
            (item, key) -> linked.isEmpty(), (item, key) -> linked.size(), (item, key) -> linked.remove(item),
            (item, key) -> linked.addAll(Arrays.asList(ITEMS)),
            (item, key) -> permits.tryAcquire(), (item, key) -> permits.release(), (item, key) -> permits.drainPermits(),
            (item, key) -> map.compute(key, (same, value) -> value == null ? Integer.valueOf(1) : value > 5 ? null : Integer.valueOf(value + 1)),
            (item, key) -> map.merge(key, 1, Integer::sum), (item, key) -> map.putIfAbsent(key, 3),
            (item, key) -> map.computeIfAbsent(key, same -> 4), (item, key) -> map.computeIfPresent(key, (same, value) -> null),
            (item, key) -> map.get(key), (item, key) -> map.size(),
            (item, key) -> keys.contains(key), (item, key) -> keys.size(), (item, key) -> keys.clear(),
            (item, key) -> lock.tryOptimisticRead(), (item, key) -> lock.validate(lock.tryOptimisticRead()),
            (item, key) -> lock.unlock(lock.readLock()), (item, key) -> write());

    void write() {
        long stamp = lock.tryWriteLock();
        if (stamp != 0) lock.unlockWrite(stamp);
    }
    void single(Single one, Object item, String key) {
        try {
            one.call(item, key);
        } catch (IllegalStateException | java.util.NoSuchElementException wanted) {
            // The queue is full, or empty.
        }
    }

    public static void main(String[] words) throws Exception {
        Singles it = new Singles();
        Meet.run(THREADS, me -> {
            Random random = new Random(me);
            for (int one = 0; one < ROUNDS; one++)
                it.single(it.singles.get(random.nextInt(it.singles.size())), ITEMS[random.nextInt(ITEMS.length)], "k" + random.nextInt(3));
        });
        System.out.println("done");
    }
}
