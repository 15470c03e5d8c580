// S: stack overflows in a block; then its thread goes on, with others in between, by a monitor
public class DeepBlock {
    int n, m;
    int rec(int i) {
        n++;
        return rec(i + 1) + n;
    }
    synchronized void after() {
        m++;
    }
    public static void main(String[] a) throws Exception {
        DeepBlock o = new DeepBlock();
        Runnable r = () -> {
            for (int k = 0; k < 10; k++) {
                o.after();
                Turns.sleep(1);
            }
        };
        for (int k = 0; k < 20; k++) {
            try {
                o.rec(0);
            } catch (StackOverflowError e) { }
            Turns.run(r, r);
            o.after();
        }
        System.out.println(o.m);
    }
}
