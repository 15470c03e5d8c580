import java.util.concurrent.ConcurrentHashMap;
import java.util.concurrent.CountDownLatch;

// Never logged (skip=Turns): orders threads without a trace of it
class Turns {
    static final ConcurrentHashMap<String, CountDownLatch> L = new ConcurrentHashMap<>();
    static CountDownLatch l(String n) {
        return L.computeIfAbsent(n, k -> new CountDownLatch(1));
    }
    static void say(String n) {
        l(n).countDown();
    }
    static void await(String n) {
        try {
            l(n).await();
        } catch (InterruptedException e) {
            throw new RuntimeException(e);
        }
    }
    static void run(Runnable... rs) {
        Thread[] t = new Thread[rs.length];
        for (int i = 0; i < t.length; i++) (t[i] = new Thread(rs[i])).start();
        for (Thread x : t) try {
            x.join();
        } catch (InterruptedException e) {
            throw new RuntimeException(e);
        }
        // Programs that run one after the other have turns of the same names.
        L.clear();
    }
    static void sleep(long ms) {
        try {
            Thread.sleep(ms);
        } catch (InterruptedException e) {
            throw new RuntimeException(e);
        }
    }
}
