import java.math.BigDecimal;
import java.util.concurrent.ConcurrentSkipListSet;

// V: 1.0 and 1.00 are one key of a sorted set, though they aren't equal
public class PricesByValue {
    private final ConcurrentSkipListSet<BigDecimal> set = new ConcurrentSkipListSet<>();

    boolean lacksTwice() {
        boolean lacked = !set.contains(new BigDecimal("1.0"));
        Meet.both();
        Meet.both();
        return lacked && !set.contains(new BigDecimal("1.0"));
    }
    void add() { set.add(new BigDecimal("1.00")); }

    public static void main(String[] words) throws Exception {
        PricesByValue it = new PricesByValue();
        Meet.run(2, me -> {
            if (me == 0) it.lacksTwice();
            else {
                Meet.both();
                it.add();
                Meet.both();
            }
        });
    }
}
