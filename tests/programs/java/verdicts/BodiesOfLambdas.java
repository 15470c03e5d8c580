import java.util.concurrent.CompletableFuture;
import java.util.concurrent.ExecutorService;
import java.util.concurrent.Executors;

// S: two suppliers look at a number and then raise it, but the bodies of lambdas are no blocks
public class BodiesOfLambdas {
    private static volatile int next = 1;

    public static void main(String[] words) {
        ExecutorService pool = Executors.newFixedThreadPool(2);
        CompletableFuture<Integer> slow = CompletableFuture.supplyAsync(() -> {
            int mine = next;
            Turns.say("lambda has looked");
            Turns.await("lambda has raised");
            next = mine + 1;
            return mine;
        }, pool);
        CompletableFuture<Integer> fast = CompletableFuture.supplyAsync(() -> {
            Turns.await("lambda has looked");
            int mine = next;
            next = mine + 1;
            Turns.say("lambda has raised");
            return mine;
        }, pool);
        System.out.println(slow.join() + " " + fast.join());
        pool.shutdown();
    }
}
