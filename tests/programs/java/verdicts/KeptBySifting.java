import java.util.concurrent.LinkedBlockingQueue;

// V: an object that is left when others are taken out is taken later: who takes it comes behind who puts it
public class KeptBySifting {
    private final LinkedBlockingQueue<Object> queue = new LinkedBlockingQueue<>();
    private int count;

    int putAndLook() {
        queue.add("kept");
        Meet.both();
        Meet.both();
        return count;
    }
    void takeAndCount() {
        queue.poll();
        count++;
    }

    public static void main(String[] words) throws Exception {
        KeptBySifting it = new KeptBySifting();
        it.queue.add("dropped");
        Meet.run(2, me -> {
            if (me == 0) it.putAndLook();
            else {
                Meet.both();
                it.queue.removeIf(item -> item == "dropped");
                it.takeAndCount();
                Meet.both();
            }
        });
    }
}
