import java.util.concurrent.CompletableFuture;

// V: a block that starts a stage in a pool and joins it has the stage in its midst, and that reads what the block wrote
public class WaitsForStage {
    static volatile int value;
    static int ask() {
        value = 1;
        int got = CompletableFuture.supplyAsync(WaitsForStage::answer).join();
        return got + value;
    }
    static int answer() { return ++value; }
    public static void main(String[] words) { System.out.println(ask()); }
}
