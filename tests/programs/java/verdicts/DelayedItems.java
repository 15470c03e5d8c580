import java.util.concurrent.DelayQueue;
import java.util.concurrent.Delayed;
import java.util.concurrent.TimeUnit;

// S: items that come out of a queue once their time is up, taken by another thread than the one that puts them
public class DelayedItems {
    static class Item implements Delayed {
        final long at;
        int used;
        Item(long at) { this.at = at; }
        @Override public long getDelay(TimeUnit unit) { return unit.convert(at - System.nanoTime(), TimeUnit.NANOSECONDS); }
        @Override public int compareTo(Delayed other) { return Long.compare(at, ((Item) other).at); }
    }
    static final DelayQueue<Item> queue = new DelayQueue<>();
    static void put(int number) {
        Item made = new Item(System.nanoTime() + number * 100_000);
        made.used++;
        queue.put(made);
    }
    static void use(Item it) { it.used++; }
    public static void main(String[] words) throws Exception {
        Meet.run(2, me -> {
            for (int one = 0; one < 5; one++) {
                if (me == 0) put(5 - one);
                else use(queue.take());
            }
        });
        System.out.println("ok");
    }
}
