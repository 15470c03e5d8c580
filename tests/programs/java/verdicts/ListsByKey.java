import java.util.ArrayList;
import java.util.Collections;
import java.util.List;
import java.util.concurrent.ConcurrentHashMap;

// V: a list is made by one call of a map and filled by another call, and a second thread fills it between; blames ListsByKey.add
public class ListsByKey {
    private final ConcurrentHashMap<String, List<Integer>> lists = new ConcurrentHashMap<>();

    void add(String key, int value, Runnable between) {
        List<Integer> list = lists.computeIfAbsent(key, none -> Collections.synchronizedList(new ArrayList<>()));
        between.run();
        list.add(value);
    }

    public static void main(String[] words) {
        ListsByKey all = new ListsByKey();
        Turns.run(() -> all.add("even", 2, () -> {
            Turns.say("made");
            Turns.await("filled");
        }), () -> {
            Turns.await("made");
            all.add("even", 4, () -> { });
            Turns.say("filled");
        });
        System.out.println(all.lists);
    }
}
