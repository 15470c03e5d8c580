import java.util.Collections;
import java.util.ArrayList;
import java.util.List;

// V: two calls of a synchronized list without its monitor round both
public class WithoutItsMonitor {
    private final List<Object> list = Collections.synchronizedList(new ArrayList<>());

    void addIfEmpty() {
        boolean isEmpty = list.isEmpty();
        Meet.both();
        if (isEmpty) list.add("a");
    }

    public static void main(String[] words) throws Exception {
        WithoutItsMonitor it = new WithoutItsMonitor();
        Meet.run(2, me -> it.addIfEmpty());
    }
}
