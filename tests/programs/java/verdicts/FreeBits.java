import java.util.BitSet;

// V: a free bit is found under the lock, and set under it later, when another thread has set it; blames FreeBits.claim
public class FreeBits {
    private final BitSet used = new BitSet();

    private int firstFree() {
        synchronized (used) {
            return used.nextClearBit(0);
        }
    }

    private void set(int bit) {
        synchronized (used) {
            used.set(bit);
        }
    }

    int claim(Runnable between) {
        int bit = firstFree();
        between.run();
        set(bit);
        return bit;
    }

    public static void main(String[] words) {
        FreeBits bits = new FreeBits();
        int[] claimed = new int[2];
        Turns.run(() -> claimed[0] = bits.claim(() -> {
            Turns.say("found");
            Turns.await("claimed");
        }), () -> {
            Turns.await("found");
            claimed[1] = bits.claim(() -> { });
            Turns.say("claimed");
        });
        System.out.println(claimed[0] + " " + claimed[1]);
    }
}
