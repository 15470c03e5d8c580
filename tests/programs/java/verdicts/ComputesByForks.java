import java.util.concurrent.ForkJoinPool;
import java.util.concurrent.ForkJoinTask;
import java.util.concurrent.RecursiveTask;

// V: a method that forks a task and joins it waits in the midst of its block for what it has given away
public class ComputesByForks {
    static class Task extends RecursiveTask<Integer> {
        int left = 1;
        int both() {
            left++;
            ForkJoinTask<Integer> other = new Other(this).fork();
            // So another thread of the pool runs it.
            Turns.await("begun");
            return other.join() + left;
        }
        @Override protected Integer compute() { return both(); }
    }
    static class Other extends RecursiveTask<Integer> {
        final Task of;
        Other(Task of) { this.of = of; }
        @Override protected Integer compute() {
            Turns.say("begun");
            return ++of.left;
        }
    }
    public static void main(String[] words) {
        ForkJoinPool pool = new ForkJoinPool(2);
        System.out.println(pool.invoke(new Task()));
        pool.shutdown();
    }
}
