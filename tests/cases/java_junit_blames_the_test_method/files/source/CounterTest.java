import aerodrome.junit.AtomicityExtension;
import org.junit.jupiter.api.Assertions;
import org.junit.jupiter.api.Assumptions;
import org.junit.jupiter.api.RepeatedTest;
import org.junit.jupiter.api.Test;
import org.junit.jupiter.api.extension.ExtendWith;

@ExtendWith(AtomicityExtension.class)
class CounterTest {
    private final Counter counter = new Counter();

    @Test void atOnce() throws Exception {
        Thread other = new Thread(counter::addAtOnce);
        other.start();
        counter.addAtOnce();
        other.join();
    }

    @Test void lost() throws Exception {
        Thread other = Turns.other(() -> counter.add());
        other.start();
        counter.add();
        other.join();
    }

    @Test void lostAndWrong() throws Exception {
        lost();
        Assertions.assertEquals(2, 1);
    }

    @RepeatedTest(2) void oneThread() {
        Turns.isFirstBetween = true;
        counter.add();
    }

    @Test void unmet() { Assumptions.assumeTrue(false, "not here"); }

    @Test void withoutBlocks() { }

    @Test void wrong() { Assertions.assertEquals(2, 1); }
}
