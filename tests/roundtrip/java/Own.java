import java.util.concurrent.ConcurrentHashMap;
import java.util.concurrent.CountDownLatch;
import java.util.concurrent.LinkedBlockingQueue;
import java.util.concurrent.Semaphore;
import java.util.concurrent.atomic.LongAdder;

/** Classes of a program that extend the JDK's, by whose own types the program calls them. Some override a method by the one above. */
public class Own {
    static class Permits extends Semaphore {
        Permits(int first) { super(first); }

        @Override public void acquire() throws InterruptedException { super.acquire(); }
        @Override public void release() { super.release(); }
    }
    static class Gate extends CountDownLatch {
        Gate(int count) { super(count); }

        @Override public void countDown() { super.countDown(); }
    }
    static class Mailbox extends LinkedBlockingQueue<Object> {
        @Override public void put(Object item) throws InterruptedException { super.put(item); }
        @Override public Object take() throws InterruptedException { return super.take(); }
    }
    static class Table extends ConcurrentHashMap<Object, Object> {
        @Override public Object put(Object key, Object value) { return super.put(key, value); }
    }
    static class Sums extends LongAdder { }
}
