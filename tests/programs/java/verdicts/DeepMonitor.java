// S: stack overflows in a synchronized method that is a block; then others use the monitor
public class DeepMonitor {
    int n, d;
    synchronized int rec(int i) {
        n++;
        d = i;
        return rec(i + 1) + 1;
    }
    synchronized void after() {
        n = 5;
        n++;
    }
    public static void main(String[] a) throws Exception {
        DeepMonitor o = new DeepMonitor();
        for (int k = 0; k < 20; k++) {
            Thread t = new Thread(() -> {
                try {
                    o.rec(0);
                } catch (StackOverflowError e) { }
                o.after();
            });
            t.start();
            t.join();
        }
        Turns.run(o::after, o::after);
        System.out.println(o.n);
    }
}
