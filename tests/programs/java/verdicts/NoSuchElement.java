import java.util.List;
import java.util.concurrent.CopyOnWriteArrayList;

// V: a list has no element yet, and has one later in the same block
public class NoSuchElement {
    private final List<String> list = new CopyOnWriteArrayList<>();

    String getTwice() {
        try {
            return list.get(0);
        } catch (IndexOutOfBoundsException wanted) {
            Meet.both();
            Meet.both();
            return list.get(0);
        }
    }
    void add() { list.add("a"); }

    public static void main(String[] words) throws Exception {
        NoSuchElement it = new NoSuchElement();
        Meet.run(2, me -> {
            if (me == 0) it.getTwice();
            else {
                Meet.both();
                it.add();
                Meet.both();
            }
        });
    }
}
