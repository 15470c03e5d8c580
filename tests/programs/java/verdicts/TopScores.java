import java.util.concurrent.ForkJoinPool;
import java.util.concurrent.ForkJoinTask;
import java.util.concurrent.PriorityBlockingQueue;
import java.util.concurrent.RecursiveAction;

// V: a score looks at the lowest of three, and another score replaces the lowest before it does; blames TopScores.offer
public class TopScores {
    private static final int MOST = 3;
    private static final PriorityBlockingQueue<Integer> top = new PriorityBlockingQueue<>();

    static void offer(int score, Runnable between) {
        if (top.size() < MOST) {
            top.add(score);
            return;
        }
        if (top.peek() >= score) return;
        between.run();
        top.poll();
        top.add(score);
    }

    static class Game extends RecursiveAction {
        private final int score;
        private final String waitsFor, says;

        Game(int score, String waitsFor, String says) {
            this.score = score;
            this.waitsFor = waitsFor;
            this.says = says;
        }

        @Override protected void compute() {
            if (waitsFor != null) Turns.await(waitsFor);
            offer(score, () -> {
                if (waitsFor != null) return;
                Turns.say("looked");
                Turns.await("replaced");
            });
            Turns.say(says);
        }
    }

    public static void main(String[] words) {
        for (int score : new int[] {1500, 1700, 1600}) offer(score, () -> { });
        ForkJoinPool pool = new ForkJoinPool(2);
        ForkJoinTask<Void> first = pool.submit(new Game(1800, null, "end"));
        ForkJoinTask<Void> second = pool.submit(new Game(1900, "looked", "replaced"));
        first.join();
        second.join();
        pool.shutdown();
        System.out.println(top);
    }
}
