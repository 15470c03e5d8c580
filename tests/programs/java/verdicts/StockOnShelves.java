// S: each take holds the monitor of its shelf once, and the threads, whose bodies aren't blocks, take from both shelves
public class StockOnShelves {
    abstract static class Shelf {
        private final int[] stock;
        private final int slot;

        Shelf(int[] stock, int slot) {
            this.stock = stock;
            this.slot = slot;
        }

        abstract int most();

        synchronized int take(int wanted) {
            int given = Math.min(Math.min(wanted, most()), stock[slot]);
            stock[slot] -= given;
            return given;
        }
    }

    static class Bulk extends Shelf {
        Bulk(int[] stock, int slot) { super(stock, slot); }

        @Override int most() {
            Turns.say("in bulk");
            Turns.await("rationed");
            return Integer.MAX_VALUE;
        }
    }

    static class Rationed extends Shelf {
        private int times;

        Rationed(int[] stock, int slot) { super(stock, slot); }

        @Override int most() { return 2; }

        @Override synchronized int take(int wanted) {
            times++;
            return super.take(wanted);
        }
    }

    public static void main(String[] words) {
        int[] stock = {10, 10};
        Shelf bulk = new Bulk(stock, 0);
        Shelf rationed = new Rationed(stock, 1);
        Turns.run(() -> {
            bulk.take(3);
            rationed.take(1);
            Turns.say("both");
        }, () -> {
            Turns.await("in bulk");
            rationed.take(5);
            Turns.say("rationed");
            Turns.await("both");
            bulk.take(1);
        });
        System.out.println("left " + stock[0] + " " + stock[1]);
    }
}
