import java.util.List;
import java.util.concurrent.CopyOnWriteArrayList;
import java.util.concurrent.PriorityBlockingQueue;

// S: riders put floors into a sorted queue, and one thread takes them and serves each in a block of its own
public class Elevator implements Runnable {
    private static final int CLOSED = Integer.MAX_VALUE;
    private final PriorityBlockingQueue<Integer> calls = new PriorityBlockingQueue<>();
    private final List<Integer> visited = new CopyOnWriteArrayList<>();
    private volatile int position;

    void call(int floor) { calls.add(floor); }

    int where() { return position; }

    private void serve(int floor) {
        position = floor;
        if (floor == 300) {
            Turns.say("in the middle of floor 300");
            Turns.await("called and looked");
        }
        visited.add(floor);
    }

    @Override public void run() {
        try {
            for (int floor = calls.take(); floor != CLOSED; floor = calls.take()) serve(floor);
        } catch (InterruptedException end) {
            Thread.currentThread().interrupt();
        }
    }

    public static void main(String[] words) {
        Elevator elevator = new Elevator();
        elevator.call(300);
        Turns.run(elevator, () -> {
            Turns.await("in the middle of floor 300");
            elevator.call(200);
            int floor = elevator.where();
            elevator.call(floor + 100);
            Turns.say("called and looked");
            elevator.call(CLOSED);
        });
        System.out.println(elevator.visited);
    }
}
