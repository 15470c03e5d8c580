import java.lang.invoke.MethodHandles;
import java.lang.invoke.VarHandle;

// S: each vote is one atomic addition to an element; two votes of different ballots overlap between their two elements
public class VotesInArray {
    private static final VarHandle COUNT = MethodHandles.arrayElementVarHandle(int[].class);
    private final int[] counts = new int[3];
    private final int[] seen = new int[64];

    void vote(int voter, int candidate, Runnable between) {
        if (!COUNT.compareAndSet(seen, voter, 0, 1)) return;
        between.run();
        COUNT.getAndAdd(counts, candidate, 1);
    }

    int of(int candidate) { return (int) COUNT.getVolatile(counts, candidate); }

    public static void main(String[] words) {
        VotesInArray votes = new VotesInArray();
        Turns.run(() -> {
            votes.vote(1, 2, () -> {
                Turns.say("one has begun");
                Turns.await("two has voted");
            });
            votes.vote(1, 0, () -> { });
        }, () -> {
            Turns.await("one has begun");
            votes.vote(2, 2, () -> { });
            Turns.say("two has voted");
        });
        System.out.println(votes.of(0) + " " + votes.of(1) + " " + votes.of(2));
    }
}
