import aerodrome.log.TestLog;

/** Logs begin and end all the time, while the program of the words runs. */
public class Sliced {
    public static void main(String[] words) throws Exception {
        Throwable[] failed = new Throwable[1];
        Thread program = new Thread(() -> {
            try {
                Several.main(words);
            } catch (Throwable wrong) {
                failed[0] = wrong;
            }
        });
        program.start();
        for (int one = 0; program.isAlive(); one++) {
            TestLog.begin("slice");
            Thread.sleep(one % 20);
            TestLog.end();
        }
        if (failed[0] != null) throw new AssertionError(failed[0]);
    }
}
