import java.util.concurrent.PriorityBlockingQueue;

// V: another thread puts a more urgent object between a look at the first one and a take
public class UrgentBetween {
    private final PriorityBlockingQueue<Integer> queue = new PriorityBlockingQueue<>();

    boolean takeFirst() {
        Integer first = queue.peek();
        Meet.both();
        Meet.both();
        return queue.poll() == first;
    }
    void add() { queue.add(1); }

    public static void main(String[] words) throws Exception {
        UrgentBetween it = new UrgentBetween();
        it.queue.add(2);
        Meet.run(2, me -> {
            if (me == 0) it.takeFirst();
            else {
                Meet.both();
                it.add();
                Meet.both();
            }
        });
    }
}
