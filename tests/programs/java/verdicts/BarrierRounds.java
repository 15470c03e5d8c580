import java.util.concurrent.BrokenBarrierException;
import java.util.concurrent.CyclicBarrier;

// S: a block is one wait at a barrier. The other thread waits there outside of blocks, and comes again at once
public class BarrierRounds {
    static final CyclicBarrier barrier = new CyclicBarrier(2);

    static void meet() throws InterruptedException, BrokenBarrierException { barrier.await(); }

    public static void main(String[] words) throws Exception {
        Meet.run(2, me -> {
            for (int round = 0; round < 500; round++) {
                if (me == 0) meet();
                else barrier.await();
            }
        });
    }
}
