import java.util.List;
import java.util.Vector;

// V: the last element of a Vector: it is counted, another thread removes one, and then it is fetched
public class LastOfVector {
    private final Vector<Integer> all = new Vector<>(List.of(1, 2, 3));

    int last() {
        int size = all.size();
        Meet.both();
        Meet.both();
        return size > all.size() ? 0 : all.get(size - 1);
    }

    public static void main(String[] words) throws Exception {
        LastOfVector it = new LastOfVector();
        Meet.run(2, me -> {
            if (me == 0) {
                it.last();
                return;
            }
            Meet.both();
            it.all.remove(0);
            Meet.both();
        });
    }
}
