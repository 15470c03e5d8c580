import java.util.Map;
import java.util.concurrent.ConcurrentHashMap;

// S: each step of an order is one compute of its key, and a second step waits for the first
public class OrdersAdvance {
    enum Step {
        NEW, PAID, SENT, DONE;

        Step next() { return values()[Math.min(ordinal() + 1, values().length - 1)]; }
    }

    private static final Map<String, Step> orders = new ConcurrentHashMap<>();

    static Step advance(String order, Runnable within) {
        return orders.compute(order, (key, step) -> {
            within.run();
            return step == null ? Step.NEW : step.next();
        });
    }

    static boolean drop(String order) { return orders.computeIfPresent(order, (key, step) -> null) == null; }

    public static void main(String[] words) {
        Turns.run(() -> {
            advance("A", () -> {
                Turns.say("within");
                Turns.await("other order");
            });
            advance("A", () -> { });
        }, () -> {
            Turns.await("within");
            advance("Bb", () -> { });
            Turns.say("other order");
            advance("A", () -> { });
            drop("Bb");
        });
        System.out.println(orders);
    }
}
