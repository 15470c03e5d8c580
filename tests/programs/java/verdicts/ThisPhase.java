import java.util.concurrent.Phaser;

// V: arrives in a phase, and then reads what another thread has done since the end of that phase; they belong to one root
public class ThisPhase {
    static final Phaser root = new Phaser(), mine = new Phaser(root, 1), other = new Phaser(root, 1);
    static volatile int told;
    static int arrive() {
        mine.arrive();
        Turns.await("told");
        return told;
    }
    public static void main(String[] words) {
        Turns.run(ThisPhase::arrive, () -> {
            other.arriveAndAwaitAdvance();
            told = 1;
            Turns.say("told");
        });
    }
}
