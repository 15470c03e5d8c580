import java.util.concurrent.CompletableFuture;

// S: stages of a CompletableFuture hand a plain object on; each stage is a block
public class Stages {
    private int value;

    Stages first() {
        value = value * 2 + 1;
        return this;
    }
    Stages second() {
        value = value + value;
        return this;
    }
    int last() { return value * value; }

    public static void main(String[] words) {
        Stages it = new Stages();
        it.first();
        int sum = 0;
        for (int one = 0; one < 20; one++)
            sum += CompletableFuture.supplyAsync(it::first).thenApplyAsync(Stages::second).thenApply(Stages::last).join();
        if (sum == 0) System.out.println(sum);
    }
}
