import org.apache.logging.log4j.LogManager;
import org.apache.logging.log4j.Logger;

/** Threads that log by Log4j: Logs THREADS ROUNDS. */
public class Logs {
    public static void main(String[] words) throws Exception {
        int rounds = Integer.parseInt(words[1]);
        Threads.run(Integer.parseInt(words[0]), me -> {
            for (int round = 0; round < rounds; round++) {
                Logger logger = LogManager.getLogger("logger" + round % 4);
                logger.error("round {} of {}", round, me);
                logger.debug("nobody reads this");
            }
        });
        System.out.println("logged");
    }
}
