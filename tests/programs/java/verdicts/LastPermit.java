import java.util.concurrent.Semaphore;

// V: takes all permits that there are, so also the one that the other block has released
public class LastPermit {
    static final Semaphore permits = new Semaphore(0);
    static volatile int told;
    static int release() {
        permits.release();
        Turns.say("released");
        Turns.await("told");
        return told;
    }
    public static void main(String[] words) {
        permits.release(2);
        Turns.run(LastPermit::release, () -> {
            Turns.await("released");
            permits.acquireUninterruptibly();
            permits.acquireUninterruptibly(2);
            told = 1;
            Turns.say("told");
        });
    }
}
