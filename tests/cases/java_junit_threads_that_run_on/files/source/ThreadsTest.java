import aerodrome.junit.Atomicity;
import java.util.concurrent.CompletableFuture;
import java.util.concurrent.ExecutorService;
import java.util.concurrent.Executors;
import java.util.concurrent.Future;
import java.util.concurrent.LinkedBlockingQueue;
import org.junit.jupiter.api.AfterAll;
import org.junit.jupiter.api.BeforeAll;
import org.junit.jupiter.api.BeforeEach;
import org.junit.jupiter.api.Test;

@Atomicity
class ThreadsTest {
    static final ExecutorService POOL = Executors.newFixedThreadPool(1);
    static final LinkedBlockingQueue<Runnable> WORK = new LinkedBlockingQueue<>();
    static Thread left;

    /** A thread of no test. */
    @BeforeAll static void startServer() {
        Thread server = new Thread(() -> {
            try {
                while (true) WORK.take().run();
            } catch (InterruptedException stop) {
                // It ends.
            }
        });
        server.setDaemon(true);
        server.start();
    }
    @BeforeEach void reset() { Shared.steps = 0; }
    @AfterAll static void stop() { POOL.shutdown(); }

    @Test void aLeavesThread() {
        left = new Thread(Shared::runsOn, "left");
        left.start();
        while (left.getState() != Thread.State.TIMED_WAITING) Thread.yield();
    }

    /** The thread of the other test writes between the two accesses. */
    @Test void bIsNotBlamed() { Shared.addLater(); }

    @Test void cStopsIt() throws Exception {
        Shared.isStopped = true;
        left.join();
        Shared.addLate(1);
    }

    @Test void dStartsPool() throws Exception {
        POOL.submit(() -> Shared.addLate(1)).get();
    }

    /** The thread of the pool is that of the test before. */
    @Test void eUsesPool() throws Exception {
        Future<?> done = POOL.submit(() -> Shared.addBetween(1, 2));
        Shared.addLate(2);
        done.get();
    }

    @Test void fUsesServer() {
        WORK.add(() -> Shared.addBetween(1, 2));
        Shared.addLate(2);
    }

    /** Its threads may end after it. */
    @Test void gDoesNotWait() {
        new Thread(() -> Shared.addBetween(1, 2)).start();
        new Thread(() -> Shared.addLate(2)).start();
        while (Shared.steps < 2) Shared.pause();
    }

    @Test void hIsAlone() { Shared.addLate(1); }

    @Test void iStartsCommonPool() { CompletableFuture.runAsync(() -> Shared.addLate(1)).join(); }

    @Test void jUsesCommonPool() {
        CompletableFuture<Void> done = CompletableFuture.runAsync(() -> Shared.addBetween(1, 2));
        Shared.addLate(2);
        done.join();
    }
}
