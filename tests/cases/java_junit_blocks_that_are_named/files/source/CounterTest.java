import aerodrome.junit.Atomicity;
import org.junit.jupiter.api.Nested;
import org.junit.jupiter.api.Test;

class CounterTest {
    private final Counter counter = new Counter();

    @Atomicity @Test void add() throws Exception {
        Thread other = Turns.other(counter::add);
        other.start();
        counter.add();
        other.join();
    }

    @Atomicity @Test void addTwice() throws Exception {
        Thread other = Turns.other(counter::addTwice);
        other.start();
        counter.addTwice();
        other.join();
    }

    @Test void unwatched() throws Exception { add(); }

    @Nested @Atomicity class Within {
        @Test void addWithin() throws Exception { add(); }
    }
}
