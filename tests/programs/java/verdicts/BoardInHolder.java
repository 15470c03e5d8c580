import java.util.HashMap;
import java.util.Map;

// S: the first score makes the board in a static initializer, and another score is added before it takes its only lock
public class BoardInHolder {
    private final Map<String, Integer> points;
    private int entries;

    private BoardInHolder() {
        points = new HashMap<>();
        points.put("nobody", 0);
        entries = 1;
    }

    private static class Holder {
        static final BoardInHolder board = new BoardInHolder();
    }

    static BoardInHolder board() { return Holder.board; }

    private synchronized void add(String name, int number) {
        if (points.merge(name, number, Integer::sum) == number) entries++;
    }

    static void score(String name, int number, Runnable between) {
        BoardInHolder board = board();
        between.run();
        board.add(name, number);
    }

    public static void main(String[] words) {
        Turns.run(() -> score("Ann", 5, () -> {
            Turns.say("made");
            Turns.await("scored");
        }), () -> {
            Turns.await("made");
            score("Bob", 3, () -> { });
            Turns.say("scored");
        });
        System.out.println(board().points + " " + board().entries);
    }
}
