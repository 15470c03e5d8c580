import java.util.concurrent.ConcurrentHashMap;
import java.util.concurrent.ConcurrentMap;
import java.util.concurrent.atomic.LongAdder;

// S: counters that computeIfAbsent makes: the second thread finds the first one's, and both add while they overlap
public class Adders {
    private final ConcurrentMap<String, LongAdder> counts = new ConcurrentHashMap<>();

    void count(int me) {
        if (me == 1) Meet.both();
        LongAdder adder = counts.computeIfAbsent("word", word -> new LongAdder());
        if (me == 0) Meet.both();
        adder.increment();
    }

    public static void main(String[] words) throws Exception {
        Adders it = new Adders();
        Meet.run(2, it::count);
        if (it.counts.get("word").sum() != 2) throw new AssertionError();
    }
}
