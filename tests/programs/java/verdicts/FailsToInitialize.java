// S: a static initializer throws out of a block, which ends there, and another thread changes the settings before the next block
public class FailsToInitialize {
    static class Driver {
        static int opened;
        static {
            opened = Integer.parseInt("none");
        }

        static void open() { opened++; }
    }

    private static int tries;
    private static int settings;

    static void connect() {
        tries = settings + 1;
        Driver.open();
    }

    static void reset() { settings = tries; }

    public static void main(String[] words) {
        Turns.run(() -> {
            for (int one = 0; one < 3; one++) {
                try {
                    connect();
                } catch (ExceptionInInitializerError | NoClassDefFoundError wrong) {
                    Turns.say("failed " + one);
                    Turns.await("reset " + one);
                }
            }
        }, () -> {
            for (int one = 0; one < 3; one++) {
                Turns.await("failed " + one);
                reset();
                Turns.say("reset " + one);
            }
        });
        System.out.println(tries + " " + settings);
    }
}
