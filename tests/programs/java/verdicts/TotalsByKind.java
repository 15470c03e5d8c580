import java.util.EnumMap;
import java.util.Map;

// S: totals by the constants of an enum, in a map under a lock, with a switch over the constants
public class TotalsByKind {
    enum Kind { PAID, OWED }

    private final Map<Kind, Integer> totals = new EnumMap<>(Kind.class);

    synchronized void add(Kind kind, int amount) {
        int signed = switch (kind) {
            case PAID -> amount;
            case OWED -> -amount;
        };
        totals.merge(kind, signed, Integer::sum);
    }
    synchronized int sum() {
        int sum = 0;
        for (Map.Entry<Kind, Integer> one : totals.entrySet()) sum += one.getValue();
        return sum;
    }
    public static void main(String[] words) {
        TotalsByKind it = new TotalsByKind();
        Runnable adds = () -> {
            for (int one = 0; one < 40; one++) {
                for (Kind kind : Kind.values()) it.add(kind, one);
                it.sum();
            }
        };
        Turns.run(adds, adds);
        System.out.println(it.sum());
    }
}
