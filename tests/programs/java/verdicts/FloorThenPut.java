import java.util.concurrent.ConcurrentSkipListMap;

// S: a price looks for the one below it and is put, and another price is put between: the look comes first, and the keys differ
public class FloorThenPut {
    private static final ConcurrentSkipListMap<Integer, String> prices = new ConcurrentSkipListMap<>();

    static void add(int price, String name, Runnable between) {
        Integer below = prices.floorKey(price);
        between.run();
        prices.put(price, name + " above " + below);
    }

    static void put(int price, String name) { prices.put(price, name); }

    public static void main(String[] words) {
        put(100, "basic");
        Turns.run(() -> add(300, "best", () -> {
            Turns.say("looked");
            Turns.await("put");
        }), () -> {
            Turns.await("looked");
            put(200, "better");
            Turns.say("put");
        });
        System.out.println(prices);
    }
}
