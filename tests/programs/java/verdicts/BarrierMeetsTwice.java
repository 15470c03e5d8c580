import java.util.concurrent.CyclicBarrier;

// V: a block waits twice at a barrier, and another thread writes between the two
public class BarrierMeetsTwice {
    private final CyclicBarrier barrier = new CyclicBarrier(2);
    private int count;

    int meetTwice() throws Exception {
        int before = count;
        barrier.await();
        barrier.await();
        return count - before;
    }
    void add() { count++; }

    public static void main(String[] words) throws Exception {
        BarrierMeetsTwice it = new BarrierMeetsTwice();
        Meet.run(2, me -> {
            if (me == 0) it.meetTwice();
            else {
                it.barrier.await();
                it.add();
                it.barrier.await();
            }
        });
    }
}
