import java.util.concurrent.*;
// V: a block completes the second of two futures, and so runs what combines them; in its midst another thread completes the first
public class CombinedLate {
    static final CompletableFuture<Integer> f = new CompletableFuture<>(), g = new CompletableFuture<>();
    static int y;
    static void block() {
        y = 1;
        Turns.say("y");
        Turns.await("done");
        g.complete(2);
    }
    public static void main(String[] x) {
        f.thenCombine(g, (a, b) -> a + b);
        Turns.run(CombinedLate::block, () -> {
            Turns.await("y");
            f.complete(y);
            Turns.say("done");
        });
    }
}
