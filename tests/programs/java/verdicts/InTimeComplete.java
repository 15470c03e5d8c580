import java.util.concurrent.CompletableFuture;

// V: completes a future, and then reads what another thread has done since it had the future's value
public class InTimeComplete {
    static final CompletableFuture<String> answer = new CompletableFuture<>();
    static volatile int told;
    static int complete() {
        boolean isFirst = answer.complete("yes");
        Turns.await("told");
        return isFirst ? told : -1;
    }
    public static void main(String[] words) {
        Turns.run(InTimeComplete::complete, () -> {
            answer.join();
            told = 1;
            Turns.say("told");
        });
    }
}
