import java.util.concurrent.BlockingQueue;
import java.util.concurrent.ConcurrentLinkedQueue;
import java.util.concurrent.CountDownLatch;
import java.util.concurrent.CyclicBarrier;
import java.util.concurrent.Exchanger;
import java.util.concurrent.LinkedBlockingQueue;
import java.util.concurrent.Phaser;
import java.util.concurrent.Semaphore;
import java.util.concurrent.SynchronousQueue;
import java.util.concurrent.locks.LockSupport;

/** Latches, barriers, semaphores, queues, parking: each gives one cell from one thread to the other, and nothing else does. */
public class Helps {
    static class Cell {
        int value;

        void set(int number) {
            value = number;
            value = value + 0;
        }
        int get() { return value + value - value; }
    }

    static final CountDownLatch latch = new CountDownLatch(1);
    static final CyclicBarrier barrier = new CyclicBarrier(2);
    static final Semaphore semaphore = new Semaphore(0);
    static final Exchanger<Cell> exchanger = new Exchanger<>();
    static final Phaser phaser = new Phaser(2);
    static final BlockingQueue<Cell> queue = new LinkedBlockingQueue<>(), rendezvous = new SynchronousQueue<>();
    static final ConcurrentLinkedQueue<Cell> free = new ConcurrentLinkedQueue<>();
    static final Cell[] cells = new Cell[9];
    static Thread taker;

    static Cell filled(int number) {
        cells[number].set(number);
        return cells[number];
    }

    static void give() throws Exception {
        filled(0);
        latch.countDown();
        filled(1);
        barrier.await();
        filled(2);
        semaphore.release();
        queue.put(filled(3));
        free.add(filled(4));
        rendezvous.put(filled(5));
        exchanger.exchange(filled(6));
        filled(7);
        phaser.arriveAndAwaitAdvance();
        filled(8);
        Meet.open();
        LockSupport.unpark(taker);
    }

    static int take() throws Exception {
        latch.await();
        int sum = cells[0].get();
        barrier.await();
        sum += cells[1].get();
        semaphore.acquire();
        sum += cells[2].get() + queue.take().get();
        Cell cell;
        while ((cell = free.poll()) == null) Thread.yield();
        sum += cell.get() + rendezvous.take().get() + exchanger.exchange(new Cell()).get();
        phaser.arriveAndAwaitAdvance();
        sum += cells[7].get();
        // (where the permit went to one of the waits above, it is open already)
        while (!Meet.isOpen()) LockSupport.park();
        return sum + cells[8].get();
    }

    public static void main(String[] words) throws Exception {
        for (int one = 0; one < cells.length; one++) cells[one] = new Cell();
        int[] sum = new int[1];
        taker = new Thread(() -> {
            try {
                sum[0] = take();
            } catch (Exception wrong) {
                throw new AssertionError(wrong);
            }
        });
        taker.start();
        give();
        taker.join();
        System.out.println(sum[0]);
    }
}
