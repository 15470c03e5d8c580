import java.util.Iterator;

// V: an iterator that gives numbers to threads reads and writes its field apart; blames IdsByIterator$Ids.next
public class IdsByIterator {
    static class Ids implements Iterator<Long> {
        private volatile long value = 1;

        @Override public boolean hasNext() { return true; }

        @Override public Long next() {
            long mine = value;
            if (Thread.currentThread().getName().equals("slow")) {
                Turns.say("read");
                Turns.await("another took it");
            }
            value = mine + 1;
            return mine;
        }
    }

    static class Order {
        long id;
        final String item;
        Order(String item) { this.item = item; }
    }

    public static void main(String[] words) throws Exception {
        Iterator<Long> ids = new Ids();
        Order tea = new Order("tea"), coffee = new Order("coffee");
        Thread slow = new Thread(() -> tea.id = ids.next(), "slow");
        Thread fast = new Thread(() -> {
            Turns.await("read");
            coffee.id = ids.next();
            Turns.say("another took it");
        }, "fast");
        slow.start();
        fast.start();
        slow.join();
        fast.join();
        if (tea.id == coffee.id) System.out.println("both have the number " + tea.id);
    }
}
