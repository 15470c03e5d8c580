import java.util.concurrent.LinkedTransferQueue;

// V: a transfer returns once the object was taken, and the block then reads what its taker wrote
public class Transferred {
    static final LinkedTransferQueue<String> queue = new LinkedTransferQueue<>();
    static volatile int told;
    static int give() throws InterruptedException {
        queue.transfer("it");
        Turns.await("told");
        return told;
    }
    public static void main(String[] words) throws Exception {
        Meet.run(2, me -> {
            if (me == 0) give();
            else {
                queue.take();
                told = 1;
                Turns.say("told");
            }
        });
    }
}
