import java.util.concurrent.CompletableFuture;
import java.util.concurrent.FutureTask;

// S: completing what is complete already, or cancelling it, changes nothing: who comes too late may come after all others
public class LateComplete {
    static final CompletableFuture<String> answer = new CompletableFuture<>(), open = new CompletableFuture<>();
    static final FutureTask<String> task = new FutureTask<>(() -> "done");
    static volatile int told;

    static int late() {
        boolean any = answer.complete("timeout") | answer.completeExceptionally(new IllegalStateException())
                | answer.cancel(true) | task.cancel(true);
        Turns.say("late");
        Turns.await("told");
        return any ? -1 : told;
    }
    /** It isn't there yet, so whoever looks doesn't come behind the one that completes it. */
    static int early() {
        String none = open.getNow("none");
        Turns.say("early");
        Turns.await("completed");
        return none.length() + told;
    }
    public static void main(String[] words) throws Exception {
        answer.complete("yes");
        task.run();
        Turns.run(LateComplete::late, () -> {
            Turns.await("late");
            if (!answer.join().equals("yes")) throw new AssertionError();
            told = 1;
            Turns.say("told");
        });
        Turns.run(LateComplete::early, () -> {
            Turns.await("early");
            open.complete("later");
            Turns.say("completed");
        });
        System.out.println("ok");
    }
}
