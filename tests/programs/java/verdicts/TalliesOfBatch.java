import java.util.concurrent.ConcurrentHashMap;

// V: a report reads two tallies, and a batch merges into both between the looks; blames TalliesOfBatch.report
public class TalliesOfBatch {
    private static final ConcurrentHashMap<String, Integer> tallies = new ConcurrentHashMap<>();

    static void finish(int succeeded, int failed) {
        tallies.merge("succeeded", succeeded, Integer::sum);
        tallies.merge("failed", failed, Integer::sum);
    }

    static void report() {
        int succeeded = tallies.getOrDefault("succeeded", 0);
        Turns.say("half a report");
        try {
            Thread.sleep(3_600_000);
        } catch (InterruptedException woken) {
            // The batch is done.
        }
        System.out.println(succeeded + " of " + (succeeded + tallies.getOrDefault("failed", 0)));
    }

    public static void main(String[] words) throws Exception {
        finish(3, 0);
        Thread reporter = new Thread(TalliesOfBatch::report);
        reporter.start();
        Thread worker = new Thread(() -> {
            Turns.await("half a report");
            finish(4, 2);
            reporter.interrupt();
        });
        worker.start();
        worker.join();
        reporter.join();
    }
}
