import java.util.concurrent.*;
// V: a class that extends Semaphore, of one permit: a method takes it twice, and another thread takes it in between
public class OwnMutexTwice extends Semaphore {
    static final OwnMutexTwice mutex = new OwnMutexTwice();
    OwnMutexTwice() { super(1); }
    void within() {
        acquireUninterruptibly();
        release();
    }
    static void twice() {
        mutex.within();
        Turns.say("one");
        Turns.await("other");
        mutex.within();
    }
    public static void main(String[] x) {
        Turns.run(OwnMutexTwice::twice, () -> {
            Turns.await("one");
            mutex.within();
            Turns.say("other");
        });
    }
}
