import java.util.function.LongSupplier;

// V: an anonymous class gives numbers, and reads and writes its field apart; blames NumbersOfAnonymous$1.getAsLong
public class NumbersOfAnonymous {
    static LongSupplier from(long start, Runnable between) {
        return new LongSupplier() {
            private volatile long next = start;

            @Override public long getAsLong() {
                long mine = next;
                between.run();
                next = mine + 1;
                return mine;
            }
        };
    }

    public static void main(String[] words) throws Exception {
        LongSupplier numbers = from(1000, () -> {
            if (!Thread.currentThread().getName().equals("slow")) return;
            Turns.say("has a number");
            Turns.await("has the same");
        });
        Thread slow = new Thread(() -> System.out.println(numbers.getAsLong()), "slow");
        slow.start();
        Turns.await("has a number");
        System.out.println(numbers.getAsLong());
        Turns.say("has the same");
        slow.join();
    }
}
