/** A bounded queue by wait and notify, whose methods enter the monitor twice, so that a wait gives it back twice. */
public class Waits {
    static class Bounded {
        private final Object[] items = new Object[2];
        private int count, head;

        synchronized void put(Object item) throws InterruptedException { putWithin(item); }
        private synchronized void putWithin(Object item) throws InterruptedException {
            while (count == items.length) wait();
            items[(head + count++) % items.length] = item;
            notifyAll();
        }
        synchronized Object take() throws InterruptedException {
            synchronized (this) {
                while (count == 0) wait(1000);
                Object item = items[head];
                head = (head + 1) % items.length;
                count--;
                notifyAll();
                return item;
            }
        }
        synchronized int size() { return count; }
    }

    static int sum;
    static synchronized void add(int more) { sum += more; }

    public static void main(String[] words) throws Exception {
        Bounded queue = new Bounded();
        Meet.run(4, me -> {
            for (int one = 0; one < 50; one++) {
                if (me < 2) queue.put(one);
                else add((Integer) queue.take());
            }
        });
        synchronized (queue) {
            queue.wait(1);
            queue.wait(0, 5);
        }
        // A join gives back the monitor of the thread that it waits for, which that takes.
        Thread last = new Thread(() -> {
            synchronized (Thread.currentThread()) {
                add(1);
            }
        });
        synchronized (last) {
            last.start();
            last.join();
        }
        try {
            queue.wait();
        } catch (IllegalMonitorStateException wrong) {
            System.out.print("not its monitor, ");
        }
        System.out.println(sum + " " + queue.size());
    }
}
