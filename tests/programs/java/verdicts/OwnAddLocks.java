import java.util.*;
// S: a list whose own add takes its monitor: a method adds twice within the monitor, and another thread's add waits for that meanwhile
public class OwnAddLocks extends ArrayList<String> {
    static final List<String> all = new OwnAddLocks();
    @Override public synchronized boolean add(String one) { return super.add(one); }
    static void two(Thread other) {
        synchronized (all) {
            all.add("a");
            Meet.untilStuck(other, Thread.State.BLOCKED);
            all.add("b");
        }
    }
    static void one() { all.add("c"); }
    public static void main(String[] x) throws Exception {
        Thread other = new Thread(OwnAddLocks::one);
        synchronized (all) {
            other.start();
            two(other);
        }
        other.join();
    }
}
