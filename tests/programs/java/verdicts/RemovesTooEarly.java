import java.util.concurrent.LinkedBlockingQueue;

// V: a block that removes an object finds it missing, and sees later that another thread has put it there
public class RemovesTooEarly {
    private final LinkedBlockingQueue<Object> queue = new LinkedBlockingQueue<>();
    private boolean isPut;

    boolean remove() {
        boolean isGone = queue.remove("a");
        Meet.both();
        Meet.both();
        return isGone || !isPut;
    }
    void put() {
        queue.add("a");
        isPut = true;
    }

    public static void main(String[] words) throws Exception {
        RemovesTooEarly it = new RemovesTooEarly();
        it.queue.add("b");
        Meet.run(2, me -> {
            if (me == 0) it.remove();
            else {
                Meet.both();
                it.put();
                Meet.both();
            }
        });
    }
}
