import java.util.concurrent.CountDownLatch;

/** The ways in which a program ends, by its argument. A daemon is within a block meanwhile, and a hook of the program's runs last. */
public class Ends {
    static volatile int count, last;
    static final CountDownLatch spinning = new CountDownLatch(1);

    static void spin() {
        spinning.countDown();
        for (;;) {
            count++;
            Thread.yield();
        }
    }
    static void runsLast() { last = 7; }

    public static void main(String[] words) throws Exception {
        Thread daemon = new Thread(Ends::spin);
        daemon.setDaemon(true);
        daemon.start();
        spinning.await();
        Runtime.getRuntime().addShutdownHook(new Thread(Ends::runsLast));
        switch (words[0]) {
            case "exit": System.exit(3); break;
            case "halt": Runtime.getRuntime().halt(4); break;
            case "throw": throw new IllegalStateException("thrown");
            case "wait":
                System.out.println("waiting");
                synchronized (Ends.class) {
                    for (;;) Ends.class.wait();
                }
            default:
        }
    }
}
