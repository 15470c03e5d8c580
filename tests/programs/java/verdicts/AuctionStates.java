import java.util.HashMap;
import java.util.Map;

// S: a bid looks up its state, whose class is then initialized, and another bid is made before it takes its only lock
public class AuctionStates {
    enum State {
        OPEN {
            @Override boolean accepts(int bid, int best) { return bid > best; }
        },
        LAST_CALL {
            @Override boolean accepts(int bid, int best) { return bid >= best + 10; }
        };

        private static final Map<String, State> byName = new HashMap<>();
        static {
            for (State one : values()) byName.put(one.name().toLowerCase(), one);
        }

        static State named(String name) { return byName.get(name); }

        abstract boolean accepts(int bid, int best);
    }

    private int best;
    private int number;

    boolean bid(String state, int amount, Runnable between) {
        State now = State.named(state);
        between.run();
        synchronized (this) {
            number++;
            if (!now.accepts(amount, best)) return false;
            best = amount;
            return true;
        }
    }

    public static void main(String[] words) {
        AuctionStates auction = new AuctionStates();
        Turns.run(() -> auction.bid("open", 70, () -> {
            Turns.say("looked up");
            Turns.await("another bid");
        }), () -> {
            Turns.await("looked up");
            auction.bid("last_call", 60, () -> { });
            Turns.say("another bid");
        });
        System.out.println("best " + auction.best + " of " + auction.number);
    }
}
