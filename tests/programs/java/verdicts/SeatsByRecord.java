import java.util.concurrent.ArrayBlockingQueue;
import java.util.concurrent.ConcurrentHashMap;

// S: two bookings overlap, but their seats are different records, and the puts of both into one queue don't conflict
public class SeatsByRecord {
    record Seat(int row, int number) { }

    private static final ConcurrentHashMap<Seat, String> taken = new ConcurrentHashMap<>();
    private static final ArrayBlockingQueue<String> mails = new ArrayBlockingQueue<>(10);
    private static volatile boolean open;

    static boolean bookPair(String who, Seat left, Seat right, Runnable between) {
        if (!open) return false;
        if (taken.putIfAbsent(left, who) != null) return false;
        between.run();
        if (taken.putIfAbsent(right, who) != null) {
            taken.remove(left, who);
            return false;
        }
        mails.add(who);
        return true;
    }

    static void mailAll(int number) {
        try {
            for (int one = 0; one < number; one++) System.out.println("mail to " + mails.take());
        } catch (InterruptedException end) {
            throw new IllegalStateException(end);
        }
    }

    public static void main(String[] words) {
        open = true;
        Turns.run(() -> bookPair("Ann", new Seat(1, 1), new Seat(1, 2), () -> {
            Turns.say("one seat");
            Turns.await("other pair");
        }), () -> {
            Turns.await("one seat");
            bookPair("Bob", new Seat(2, 1), new Seat(2, 2), () -> { });
            Turns.say("other pair");
        });
        open = false;
        mailAll(2);
        System.out.println("taken " + taken.size());
    }
}
