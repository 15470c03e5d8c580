import java.util.concurrent.ForkJoinPool;
import java.util.concurrent.ForkJoinTask;

// S: what forks tasks and joins them is no block here, as its name is `run`; what adds is one, and has its own part
public class SumsByForks {
    static final int[] NUMBERS = new int[64];
    static int part(int from, int to) {
        int sum = 0;
        for (int one = from; one < to; one++) sum += NUMBERS[one];
        return sum;
    }
    static int run(int from, int to) {
        if (to - from <= 16) return part(from, to);
        int middle = (from + to) / 2;
        ForkJoinTask<Integer> left = ForkJoinTask.adapt(() -> run(from, middle));
        ForkJoinTask<Integer> right = ForkJoinTask.adapt(() -> run(middle, to));
        ForkJoinTask.invokeAll(left, right);
        return left.join() + right.join();
    }
    public static void main(String[] words) {
        for (int one = 0; one < NUMBERS.length; one++) NUMBERS[one] = one;
        ForkJoinPool pool = new ForkJoinPool(3);
        System.out.println(pool.submit(() -> run(0, NUMBERS.length)).join());
        pool.shutdown();
    }
}
