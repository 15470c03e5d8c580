import java.util.concurrent.atomic.*;
// S: toString of an AtomicReference calls a synchronized method, whose monitor another thread has for a while
public class Shown {
    int n;
    public synchronized String toString() {
        return "v" + n;
    }
    synchronized void hold() {
        Turns.say("held");
        Turns.sleep(300);
        for (int i = 0; i < 100; i++) n++;
    }
    static void show(AtomicReference<Shown> r) {
        Turns.await("held");
        System.out.println(r.toString());
    }
    public static void main(String[] a) {
        Shown v = new Shown();
        AtomicReference<Shown> r = new AtomicReference<>(v);
        Turns.run(v::hold, () -> show(r));
        System.out.println("end");
    }
}
