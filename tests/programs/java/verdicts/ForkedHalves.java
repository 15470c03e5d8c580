import java.util.concurrent.ForkJoinPool;
import java.util.concurrent.ForkJoinTask;
import java.util.concurrent.RecursiveTask;

// S: what a fork-join pool runs is no block by default, also where a class of the program stands between it and RecursiveTask
public class ForkedHalves {
    abstract static class Task extends RecursiveTask<Integer> {
        int left = 1;
    }
    static class Half extends Task {
        @Override protected Integer compute() {
            left++;
            ForkJoinTask<Integer> other = new Other(this).fork();
            // So another thread of the pool runs it.
            Turns.await("half");
            return other.join() + left;
        }
    }
    static class Other extends Task {
        final Task of;
        Other(Task of) { this.of = of; }
        @Override protected Integer compute() {
            Turns.say("half");
            return ++of.left;
        }
    }
    public static void main(String[] words) {
        ForkJoinPool pool = new ForkJoinPool(2);
        System.out.println(pool.invoke(new Half()));
        pool.shutdown();
    }
}
