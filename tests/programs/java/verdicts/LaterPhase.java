import java.util.concurrent.Exchanger;
import java.util.concurrent.Phaser;

// S: who waits for the end of a phase doesn't wait for arrivals in the next one, nor do two who exchange for two others
public class LaterPhase {
    static final Phaser phaser = new Phaser(2);
    static final Exchanger<String> exchanger = new Exchanger<>();
    static volatile int told;

    static int arriveLater() {
        phaser.arrive();
        Turns.say("arrived");
        Turns.await("told");
        return told;
    }
    /** No block, as its name is `run`. */
    static void run(String own) {
        try {
            exchanger.exchange(own);
        } catch (InterruptedException impossible) {
            throw new AssertionError(impossible);
        }
    }
    static int exchangeEarlier() {
        run("a");
        Turns.say("exchanged");
        Turns.await("told");
        return told;
    }
    public static void main(String[] words) {
        phaser.arrive();
        phaser.arrive();
        Turns.run(LaterPhase::arriveLater, () -> {
            Turns.await("arrived");
            phaser.awaitAdvance(0);
            told = 1;
            Turns.say("told");
        });
        Turns.run(LaterPhase::exchangeEarlier, () -> run("b"), () -> {
            Turns.await("exchanged");
            run("c");
            told = 1;
            Turns.say("told");
        }, () -> {
            Turns.await("exchanged");
            run("d");
        });
        System.out.println("ok");
    }
}
