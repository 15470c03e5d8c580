import java.lang.ref.Cleaner;
import java.lang.ref.WeakReference;

// S: a cleaner's thread, and that of finalizers, use what nobody else has any more
public class CleanedUp {
    static class Used {
        int used;
        @Override @SuppressWarnings({"deprecation", "removal"}) protected void finalize() { used++; }
    }
    static class Action implements Runnable {
        static volatile int done;
        int ran;
        @Override public void run() {
            ran++;
            done = 1;
        }
    }
    static void make(Cleaner cleaner) {
        Used made = new Used();
        made.used++;
        cleaner.register(made, new Action());
    }
    public static void main(String[] words) throws Exception {
        Cleaner cleaner = Cleaner.create();
        WeakReference<Object> weak = new WeakReference<>(new Object());
        make(cleaner);
        for (int one = 0; one < 200 && (Action.done == 0 || weak.get() != null); one++) {
            System.gc();
            Thread.sleep(5);
        }
        System.out.println("ok");
    }
}
