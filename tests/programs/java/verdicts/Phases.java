import java.util.concurrent.Phaser;

// S: in each phase a thread writes its own slot and, in the next one, reads the other's; a phaser is between
public class Phases {
    private final int[] slots = new int[2];

    void write(int me, int value) { slots[me] = slots[me] + value; }
    int read(int me) { return slots[1 - me] + slots[1 - me]; }

    public static void main(String[] words) throws Exception {
        Phases it = new Phases();
        Phaser phaser = new Phaser(2);
        Meet.run(2, me -> {
            for (int phase = 0; phase < 10; phase++) {
                it.write(me, phase);
                phaser.arriveAndAwaitAdvance();
                it.read(me);
                phaser.arriveAndAwaitAdvance();
            }
        });
    }
}
