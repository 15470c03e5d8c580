import java.util.concurrent.Phaser;

// S: two threads arrive at two phasers, in opposite order
public class Arrivals {
    private final Phaser first = new Phaser(2), second = new Phaser(2);

    void both(Phaser one, Phaser other) {
        one.arrive();
        Meet.both();
        other.arrive();
    }

    public static void main(String[] words) throws Exception {
        Arrivals it = new Arrivals();
        Meet.run(2, me -> it.both(me == 0 ? it.first : it.second, me == 0 ? it.second : it.first));
    }
}
