/** A thread that takes the log's lock, and keeps it for ever. The program goes on, or waits for a signal. */
public class Keeping {
    static int count;

    public static void main(String[] words) throws Exception {
        count++;
        Thread keeper = new Thread(() -> {
            try {
                Class.forName("aerodrome.log.Log").getMethod("lock").invoke(null);
                Meet.open();
                Thread.sleep(1_000_000);
            } catch (Exception wrong) {
                throw new AssertionError(wrong);
            }
        }, "keeper");
        keeper.setDaemon(true);
        keeper.start();
        while (!Meet.isOpen()) Thread.yield();
        System.out.println("kept");
        if (words[0].equals("goes-on")) System.out.println("count " + ++count);
        else for (;;) Thread.sleep(1_000_000);
    }
}
