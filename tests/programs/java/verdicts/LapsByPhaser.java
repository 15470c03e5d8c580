import java.util.concurrent.Phaser;
import java.util.concurrent.locks.Lock;
import java.util.concurrent.locks.ReentrantLock;

// V: two runners wait for each other between two counters, each within its block; blames LapsByPhaser.lap
public class LapsByPhaser {
    private final Phaser line = new Phaser(2);
    private final Lock lock = new ReentrantLock();
    private int halves;
    private int laps;

    private void count(boolean half) {
        lock.lock();
        try {
            if (half) halves++;
            else laps++;
        } finally {
            lock.unlock();
        }
    }

    void lap() {
        count(true);
        line.arriveAndAwaitAdvance();
        count(false);
    }

    public static void main(String[] words) throws Exception {
        LapsByPhaser race = new LapsByPhaser();
        Thread one = new Thread(race::lap), two = new Thread(race::lap);
        one.start();
        two.start();
        one.join();
        two.join();
        System.out.println(race.halves + " halves, " + race.laps + " laps");
    }
}
