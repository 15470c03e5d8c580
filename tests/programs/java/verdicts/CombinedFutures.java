import java.util.concurrent.CompletableFuture;

// S: two futures are combined, and what each of them wrote is read where both are done
public class CombinedFutures {
    static int[] left = new int[3], right = new int[3];
    static int[] fill(int[] all, int value) {
        for (int place = 0; place < all.length; place++) all[place] += value;
        return all;
    }
    static int sum(int[] some, int[] others) {
        int sum = 0;
        for (int place = 0; place < some.length; place++) sum += some[place] + others[place];
        return sum;
    }
    public static void main(String[] words) {
        for (int round = 1; round <= 5; round++) {
            int value = round;
            CompletableFuture<int[]> some = CompletableFuture.supplyAsync(() -> fill(left, value));
            CompletableFuture<int[]> others = CompletableFuture.supplyAsync(() -> fill(right, -value));
            System.out.println(some.thenCombineAsync(others, CombinedFutures::sum).join());
        }
    }
}
