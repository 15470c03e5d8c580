import java.util.concurrent.locks.*;
// S: both methods only see, by tries that fail, that a lock is held by a third thread; nothing changes
public class StampedTries {
    final StampedLock l = new StampedLock();
    void twice() {
        l.tryWriteLock();
        Turns.say("1");
        Turns.await("2");
        l.tryWriteLock();
    }
    void once() {
        Turns.await("1");
        l.tryWriteLock();
        Turns.say("2");
    }
    public static void main(String[] a) {
        StampedTries o = new StampedTries();
        long s = o.l.readLock();
        Turns.run(o::twice, o::once);
        o.l.unlockRead(s);
        System.out.println("ok");
    }
}
