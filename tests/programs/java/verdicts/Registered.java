import java.util.concurrent.Phaser;

// S: parties that come and go: each phase belongs to the one whose turn it is
public class Registered {
    private int x, y;

    void turn() {
        x = y + 1;
        y = x;
    }

    public static void main(String[] words) throws Exception {
        Registered it = new Registered();
        Phaser phaser = new Phaser(0);
        for (int one = 0; one < 3; one++) phaser.register();
        Meet.run(3, me -> {
            for (int phase = 0; phase < 6; phase++) {
                if (phase % 3 == me) it.turn();
                phaser.arriveAndAwaitAdvance();
            }
            phaser.arriveAndDeregister();
        });
    }
}
