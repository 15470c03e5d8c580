import java.util.List;
import java.util.concurrent.CopyOnWriteArrayList;

// S: a reader goes over a CopyOnWriteArrayList once while another thread adds to it
public class Copies {
    private final List<Integer> all = new CopyOnWriteArrayList<>(List.of(1, 2));

    int sum() {
        int sum = 0;
        for (int one : all) {
            if (one == 1) {
                Meet.both();
                Meet.both();
            }
            sum += one;
        }
        return sum;
    }
    void add() {
        Meet.both();
        all.add(3);
        Meet.both();
    }

    public static void main(String[] words) throws Exception {
        Copies it = new Copies();
        Meet.run(2, me -> {
            if (me == 0) it.sum();
            else it.add();
        });
    }
}
