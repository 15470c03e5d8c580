import aerodrome.log.TestLog;
import java.io.IOException;

/** A second log begins before the first has ended: both are refused, and then there may be others. */
public class Overlap {
    interface Step { Object run() throws IOException; }

    static void tries(Step step) {
        try {
            System.out.println(step.run());
        } catch (IOException refused) {
            System.out.println("refused: " + refused.getMessage());
        }
    }
    public static void main(String[] words) {
        tries(() -> TestLog.begin("one"));
        tries(() -> TestLog.begin("two"));
        tries(TestLog::end);
        tries(() -> TestLog.begin("one"));
        tries(TestLog::end);
        tries(() -> TestLog.begin("blanks and/slashes"));
        tries(TestLog::end);
    }
}
