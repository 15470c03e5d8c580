import java.util.concurrent.ExecutorService;
import java.util.concurrent.Executors;
import java.util.concurrent.Future;
import java.util.concurrent.TimeUnit;

// S: one teller makes all transfers, clients give them to it in one block, and wait for them in another
public class TellerOfBank {
    private static final long[] balances = {100, 100, 100};
    private static final ExecutorService teller = Executors.newSingleThreadExecutor();

    private static void move(int from, int to, long amount) {
        if (balances[from] < amount) throw new IllegalArgumentException("too little money");
        balances[from] -= amount;
        if (amount == 30) {
            Turns.say("half a transfer");
            Turns.await("second is asked for");
        }
        balances[to] += amount;
    }

    static Future<?> transfer(int from, int to, long amount) {
        return teller.submit(() -> move(from, to, amount));
    }

    static void finish(Future<?> transfer) throws Exception {
        transfer.get();
        System.out.println("transferred");
    }

    public static void main(String[] words) throws Exception {
        Thread first = new Thread(() -> {
            Future<?> mine = transfer(0, 1, 30);
            try {
                finish(mine);
            } catch (Exception wrong) {
                throw new IllegalStateException(wrong);
            }
        });
        Thread second = new Thread(() -> {
            Turns.await("half a transfer");
            Future<?> mine = transfer(1, 2, 120);
            Turns.say("second is asked for");
            try {
                finish(mine);
            } catch (Exception wrong) {
                throw new IllegalStateException(wrong);
            }
        });
        first.start();
        second.start();
        first.join();
        second.join();
        teller.shutdown();
        teller.awaitTermination(1, TimeUnit.MINUTES);
        System.out.println(balances[0] + " " + balances[1] + " " + balances[2]);
    }
}
