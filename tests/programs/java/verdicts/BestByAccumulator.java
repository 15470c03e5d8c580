import java.util.concurrent.atomic.LongAccumulator;

// V: a score is accumulated and then compared with the best, and another score comes between; blames BestByAccumulator.score
public class BestByAccumulator {
    private static final LongAccumulator best = new LongAccumulator(Math::max, 0);
    private static volatile String leader = "nobody";

    static void score(String name, long points, Runnable between) {
        best.accumulate(points);
        between.run();
        if (best.get() == points) leader = name;
    }

    public static void main(String[] words) {
        Turns.run(() -> score("Ann", 10, () -> {
            Turns.say("accumulated");
            Turns.await("compared");
        }), () -> {
            Turns.await("accumulated");
            score("Bob", 20, () -> { });
            Turns.say("compared");
        });
        System.out.println(leader);
    }
}
