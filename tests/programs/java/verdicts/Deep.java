// S: a stack that overflows in blocks and in synchronized methods, several times; then another thread uses the same
// monitor and field
public class Deep {
    int n, d;
    synchronized int rec(int i) {
        n++;
        d = i;
        return rec(i + 1) + 1;
    }
    int rec2(int i) {
        n++;
        return rec2(i + 1) + n;
    }
    int rec3(int i) {
        synchronized (this) {
            n++;
            return rec3(i + 1) + n;
        }
    }
    synchronized void after() {
        n = 5;
        n++;
    }
    public static void main(String[] a) throws Exception {
        Deep o = new Deep();
        for (int k = 0; k < 5; k++) {
            try {
                o.rec(0);
            } catch (StackOverflowError e) { }
            try {
                o.rec2(0);
            } catch (StackOverflowError e) { }
            try {
                o.rec3(0);
            } catch (StackOverflowError e) { }
        }
        Turns.run(o::after, o::after);
        System.out.println(o.n + " " + (o.d > 100));
        o.after();
    }
}
