import java.util.concurrent.ArrayBlockingQueue;
import java.util.concurrent.CountDownLatch;
import java.util.concurrent.LinkedTransferQueue;
import java.util.concurrent.Semaphore;
import java.util.concurrent.SynchronousQueue;
import java.util.concurrent.TimeUnit;
import java.util.concurrent.locks.ReentrantLock;

// S: waits that end without what they waited for don't come behind those who have done a part of it
public class GiveUp {
    static final CountDownLatch latch = new CountDownLatch(2);
    static final Semaphore permits = new Semaphore(0);
    static final SynchronousQueue<String> meeting = new SynchronousQueue<>();
    static final LinkedTransferQueue<String> transfers = new LinkedTransferQueue<>();
    static final ArrayBlockingQueue<String> full = new ArrayBlockingQueue<>(1);
    static final ReentrantLock lock = new ReentrantLock();
    static volatile int progress;

    static int part() {
        latch.countDown();
        permits.release();
        boolean isNone = meeting.isEmpty() && transfers.isEmpty() && meeting.peek() == null;
        boolean isFull = !full.offer("more");
        Turns.say("part");
        Turns.await("progress");
        return isNone && isFull ? progress : -1;
    }
    static void giveUp() throws InterruptedException {
        boolean any = latch.await(1, TimeUnit.MILLISECONDS) | permits.tryAcquire(2, 1, TimeUnit.MILLISECONDS)
                | meeting.offer("a") | meeting.offer("b", 1, TimeUnit.MILLISECONDS) | transfers.tryTransfer("c")
                | transfers.tryTransfer("d", 1, TimeUnit.MILLISECONDS) | lock.tryLock(1, TimeUnit.MILLISECONDS)
                | full.offer("e", 1, TimeUnit.MILLISECONDS) | permits.tryAcquire(2) | meeting.poll() != null;
        if (any) throw new AssertionError();
        progress = 1;
    }
    public static void main(String[] words) throws Exception {
        full.put("first");
        Thread holds = new Thread(() -> {
            lock.lock();
            Turns.say("locked");
            Turns.await("progress");
            lock.unlock();
        });
        holds.start();
        Turns.run(GiveUp::part, () -> {
            Turns.await("locked");
            Turns.await("part");
            try {
                giveUp();
            } catch (InterruptedException impossible) {
                throw new AssertionError(impossible);
            }
            Turns.say("progress");
        }, () -> {
            try {
                holds.join();
            } catch (InterruptedException impossible) {
                throw new AssertionError(impossible);
            }
        });
        System.out.println("ok");
    }
}
