import java.math.BigInteger;
import java.nio.file.Paths;
import java.util.ArrayList;
import java.util.List;
import java.util.Set;
import java.util.UUID;
import java.util.concurrent.ArrayBlockingQueue;
import java.util.concurrent.BlockingQueue;
import java.util.concurrent.ConcurrentHashMap;
import java.util.concurrent.ConcurrentMap;
import java.util.concurrent.ConcurrentSkipListSet;
import java.util.concurrent.Semaphore;
import java.util.concurrent.locks.Lock;
import java.util.concurrent.locks.StampedLock;

/** Blocks that overlap in each run, and that share nothing but what lets them: each of them is as if it had run alone. */
public class Overlap {
    final Semaphore permits = new Semaphore(2), many = new Semaphore(Integer.MAX_VALUE);
    final BlockingQueue<Object> tokens = new ArrayBlockingQueue<>(2);
    final StampedLock lock = new StampedLock();
    final Lock view = lock.asReadLock();
    final ConcurrentMap<Object, Integer> map = new ConcurrentHashMap<>();
    final Set<String> keys = ConcurrentHashMap.newKeySet(), sorted = new ConcurrentSkipListSet<>();
    final ConcurrentMap<String, List<Integer>> lists = new ConcurrentHashMap<>();
    int value, computed;

    void permit() throws InterruptedException {
        permits.acquire();
        Meet.both();
        permits.release();
    }
    void token() throws InterruptedException {
        Object one = tokens.take();
        Meet.both();
        tokens.put(one);
    }
    int read() {
        long stamp = lock.readLock();
        Meet.both();
        int read = value;
        lock.unlockRead(stamp);
        return read;
    }
    int readByStamp() {
        long stamp = lock.readLock();
        Meet.both();
        int read = value;
        lock.unlock(stamp);
        return read;
    }
    int readByView() {
        view.lock();
        Meet.both();
        int read = value;
        view.unlock();
        return read;
    }
    void tryTwice() {
        lock.tryWriteLock();
        Meet.both();
        lock.tryWriteLock();
    }
    void write() {
        long stamp = lock.writeLock();
        value++;
        lock.unlockWrite(stamp);
    }
    int look() {
        long stamp = lock.readLock();
        int read = value + value;
        lock.unlockRead(stamp);
        return read;
    }

    /** Its hash is its own, and its equality isn't. */
    static class Session {
        @Override public int hashCode() { return 3; }
    }

    static Object[] keys(int me) {
        BigInteger big = new BigInteger("5" + me);
        return new Object[] {new UUID(me, me), Paths.get("a" + me), me + 0.5, big, new Session(), Long.valueOf(-me)};
    }
    void twice(Object key) {
        map.put(key, 1);
        Meet.both();
        map.put(key, 2);
    }
    /** Looks don't conflict, and nobody puts between them. */
    int countTwice() {
        int first = map.size();
        Meet.both();
        return first + map.size();
    }
    /** A thread that puts after a look of another one. */
    void lookOnce() {
        map.isEmpty();
        Meet.both();
        Meet.both();
    }
    void putOnce(Object key) {
        Meet.both();
        map.put(key, 3);
        Meet.both();
    }
    /** All permits, however many. */
    void allPermits() throws InterruptedException {
        many.acquire(Integer.MAX_VALUE);
        value++;
        many.release(Integer.MAX_VALUE);
    }
    void addTwice(Set<String> set, int me) {
        set.add("first" + me);
        Meet.both();
        set.add("second" + me);
    }
    /** The map runs the function as one with what it puts. */
    void compute(int one) {
        lists.compute("list", (key, list) -> {
            computed++;
            if (list == null) list = new ArrayList<>();
            list.add(one);
            return list;
        });
    }
    void count(String key) { map.merge(key, 1, (before, one) -> before + one); }
    int make(String key) { return map.computeIfAbsent(key, made -> 1); }

    static class Account extends Meet.Base {
        int balance;

        void pay() {
            balance++;
            Meet.both();
            balance--;
        }
    }

    public static void main(String[] words) throws Exception {
        Overlap it = new Overlap();
        for (int one = 0; one < 2; one++) it.tokens.add(it);
        Account[] accounts = {new Account(), null};
        accounts[0].balance = 1;
        accounts[1] = (Account) accounts[0].copy();
        Meet.run(2, me -> {
            it.permit();
            it.token();
            it.read();
            it.readByStamp();
            it.readByView();
            for (Object key : keys(me)) it.twice(key);
            Meet.both();
            it.countTwice();
            if (me == 0) it.lookOnce();
            else it.putOnce("after");
            it.allPermits();
            it.addTwice(it.keys, me);
            it.addTwice(it.sorted, me);
            accounts[me].pay();
            for (int one = 0; one < 100; one++) {
                it.write();
                it.look();
                it.compute(one);
                it.count("count");
                it.make("made" + one);
            }
        });
        long stamp = it.lock.readLock();
        Meet.run(2, me -> it.tryTwice());
        it.lock.unlockRead(stamp);
        System.out.println(it.map.get("count") + " " + it.computed + " " + it.keys.size() + " " + it.lists.get("list").size());
    }
}
