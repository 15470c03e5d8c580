// S: threads that die by an exception or an error close their blocks and locks, and a handler is told
public class DiesInBlock {
    static int count;
    static synchronized void die(int how) {
        count++;
        if (how == 0) throw new IllegalStateException("wanted");
        if (how == 1) die(how);
        if (how == 2) throw new OutOfMemoryError("wanted");
        synchronized (DiesInBlock.class) {
            throw new ThreadDeath();
        }
    }
    static synchronized void told() { count++; }
    public static void main(String[] words) throws Exception {
        Thread[] all = new Thread[4];
        for (int one = 0; one < all.length; one++) {
            int how = one;
            all[one] = new Thread(() -> die(how));
            all[one].setUncaughtExceptionHandler((thread, wrong) -> told());
            all[one].start();
        }
        for (Thread one : all) one.join();
        told();
        System.out.println("ok");
    }
}
