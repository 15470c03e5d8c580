import aerodrome.junit.Atomicity;
import org.junit.jupiter.api.Test;

@Atomicity
class OneTest {
    static void prints() { System.err.println("it runs"); }

    @Test void runs() { prints(); }
}
