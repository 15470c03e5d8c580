// S: a common singleton: the constructor starts a thread on `this`; the initializer then loads something
public class Poller extends Thread {
    private static final Poller INSTANCE = new Poller();
    private static int polls;
    private static final java.util.Map<String, String> CONFIG = load();
    private static java.util.Map<String, String> load() {
        try {
            Thread.sleep(50);
        } catch (InterruptedException e) { }
        return parse("a=b");
    }
    private static java.util.Map<String, String> parse(String s) {
        java.util.Map<String, String> m = new java.util.HashMap<>();
        m.put("a", s);
        return m;
    }
    private Poller() {
        setDaemon(true);
        start();
    }
    @Override public void run() {
        for (;;) {
            poll();
            try {
                Thread.sleep(10);
            } catch (InterruptedException e) {
                return;
            }
        }
    }
    private synchronized void poll() {
        polls++;
    }
    public static void main(String[] a) throws Exception {
        Thread.sleep(100);
        System.out.println("polled " + (polls > 0));
        // (a poll that is open where the log ends would leave the log without a verdict)
        INSTANCE.interrupt();
        INSTANCE.join();
    }
}
