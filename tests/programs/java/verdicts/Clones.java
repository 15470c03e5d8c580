// S: clones are objects of their own; Hid2 isn't logged and makes the clones (as a library's base class)
public class Clones {
    static class Acc extends CloneBase {
        int n;
        void two(String m, String o) {
            n = 1;
            Turns.say(m);
            Turns.await(o);
            n = 2;
        }
    }
    public static void main(String[] x) {
        Acc a = new Acc();
        a.n = 0;
        Acc b = (Acc) a.copy();
        Turns.run(() -> a.two("a", "b"), () -> b.two("b", "a"));
        System.out.println(a.n + b.n);
    }
}
