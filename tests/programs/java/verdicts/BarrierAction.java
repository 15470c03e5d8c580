import java.util.concurrent.CyclicBarrier;

// S: the last one at a barrier adds up what all have done, outside of their blocks
public class BarrierAction {
    static final int[] parts = new int[3];
    static int sum;
    static void work(int me, int round) { parts[me] += round; }
    static void addUp() {
        for (int one : parts) sum += one;
    }
    public static void main(String[] words) throws Exception {
        CyclicBarrier barrier = new CyclicBarrier(3, BarrierAction::addUp);
        Meet.run(3, me -> {
            for (int round = 0; round < 5; round++) {
                work(me, round);
                barrier.await();
                barrier.await();
            }
        });
        System.out.println(sum);
    }
}
