import java.util.concurrent.CompletableFuture;
import java.util.concurrent.TimeUnit;

// S: stages of a future run in the thread that completes it or in a pool, and each block uses what is its own or was given to it
public class ChainOfStages {
    static int twice(int value) { return 2 * value; }
    static int sum(int one, int other) { return one + other; }
    static int[] held(int value) { return new int[] {value}; }
    public static void main(String[] words) {
        CompletableFuture<Integer> first = new CompletableFuture<>(), second = new CompletableFuture<>();
        CompletableFuture<Integer> both = first.thenApply(ChainOfStages::twice)
                .thenCombineAsync(second.thenApplyAsync(ChainOfStages::twice), ChainOfStages::sum);
        CompletableFuture<int[]> last = both.thenCompose(value -> CompletableFuture.supplyAsync(() -> held(value)))
                .whenComplete((value, wrong) -> value[0]++).exceptionally(wrong -> held(-1));
        CompletableFuture<Object> any = CompletableFuture.anyOf(first, second);
        Turns.run(() -> first.complete(1), () -> second.complete(2));
        CompletableFuture.allOf(last, any).orTimeout(20, TimeUnit.SECONDS).join();
        if (last.join()[0] != 7) throw new AssertionError(last.join()[0]);
        System.out.println("ok");
    }
}
