import java.util.concurrent.CountDownLatch;
import java.util.concurrent.Semaphore;

// S: of two releases either would do for the one that acquires, and an open latch is counted down for nobody
public class EitherPermit {
    static final Semaphore permits = new Semaphore(0), bulk = new Semaphore(0);
    static final CountDownLatch latch = new CountDownLatch(1);
    static volatile int told;

    static int release() {
        permits.release();
        bulk.release(3);
        latch.countDown();
        Turns.say("released");
        Turns.await("told");
        return told;
    }
    public static void main(String[] words) {
        latch.countDown();
        permits.release();
        bulk.release(5);
        Turns.run(EitherPermit::release, () -> {
            Turns.await("released");
            permits.acquireUninterruptibly();
            bulk.acquireUninterruptibly(2);
            bulk.acquireUninterruptibly(3);
            try {
                latch.await();
            } catch (InterruptedException impossible) {
                throw new AssertionError(impossible);
            }
            told = 1;
            Turns.say("told");
        });
        System.out.println("ok " + permits.availablePermits() + " " + bulk.availablePermits());
    }
}
