import java.util.concurrent.locks.LockSupport;

// S: two threads unpark two others, in opposite order
public class Wakes {
    static void both(Thread one, Thread other) {
        LockSupport.unpark(one);
        Meet.both();
        LockSupport.unpark(other);
    }

    public static void main(String[] words) throws Exception {
        Thread first = new Thread(LockSupport::park), second = new Thread(LockSupport::park);
        first.start();
        second.start();
        Meet.run(2, me -> both(me == 0 ? first : second, me == 0 ? second : first));
        first.join();
        second.join();
    }
}
