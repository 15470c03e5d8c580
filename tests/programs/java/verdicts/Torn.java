// V: two critical sections in one block
public class Torn {
    int n;
    synchronized int get() {
        return n;
    }
    synchronized void set(int v) {
        n = v;
    }
    void inc(String m, String o) {
        int v = get();
        Turns.say(m);
        Turns.await(o);
        set(v + 1);
    }
    public static void main(String[] x) {
        Torn o = new Torn();
        Turns.run(() -> o.inc("a", "b"), () -> o.inc("b", "a"));
        System.out.println(o.n);
    }
}
