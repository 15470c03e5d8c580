import java.util.logging.Handler;
import java.util.logging.Level;
import java.util.logging.LogRecord;
import java.util.logging.Logger;

// S: two threads write to one logger of java.util.logging, whose handler is the program's
public class LoggedByThem {
    static final Logger LOGGER = Logger.getLogger("aerodrome.tests");
    static class Kept extends Handler {
        private int count;
        @Override public synchronized void publish(LogRecord record) { count++; }
        @Override public void flush() { }
        @Override public void close() { }
    }
    static void tell(int number) { LOGGER.log(Level.INFO, "told {0}", number); }
    public static void main(String[] words) throws Exception {
        LOGGER.setUseParentHandlers(false);
        LOGGER.addHandler(new Kept());
        Meet.run(2, me -> {
            for (int one = 0; one < 10; one++) tell(one);
        });
        System.out.println("ok");
    }
}
