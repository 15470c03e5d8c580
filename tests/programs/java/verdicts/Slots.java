import java.util.ArrayList;
import java.util.List;
import java.util.concurrent.Callable;
import java.util.concurrent.ExecutorService;
import java.util.concurrent.Executors;
import java.util.concurrent.Future;

// S: tasks of a pool fill a slot each, and the main thread adds them up once it has their results
public class Slots {
    private final int[] slots = new int[10];

    int fill(int slot) { return slots[slot] = slots[slot] + slot; }
    int sum() {
        int sum = 0;
        for (int one : slots) sum += one;
        return sum;
    }

    public static void main(String[] words) throws Exception {
        Slots it = new Slots();
        ExecutorService pool = Executors.newFixedThreadPool(3);
        List<Callable<Integer>> tasks = new ArrayList<>();
        for (int one = 0; one < 10; one++) {
            int slot = one;
            tasks.add(() -> it.fill(slot));
        }
        for (int time = 0; time < 3; time++) {
            for (Future<Integer> one : pool.invokeAll(tasks)) one.get();
            it.sum();
        }
        pool.shutdown();
        if (it.sum() != 135) throw new AssertionError(it.sum());
    }
}
