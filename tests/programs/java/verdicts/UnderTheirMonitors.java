import java.util.ArrayList;
import java.util.Arrays;
import java.util.Collections;
import java.util.HashMap;
import java.util.Hashtable;
import java.util.List;
import java.util.Map;
import java.util.Properties;
import java.util.Vector;

// S: several calls within the monitor of a collection that takes it in each call; the other thread calls it meanwhile, and waits
public class UnderTheirMonitors {
    private final List<Object> list = Collections.synchronizedList(new ArrayList<>(Arrays.asList("a", "b"))),
            vector = new Vector<>(Arrays.asList("a", "b"));
    private final Map<Object, Object> map = Collections.synchronizedMap(new HashMap<>()), table = new Hashtable<>();
    private final Properties properties = new Properties();

    void takeOf(List<Object> all, Thread other) {
        synchronized (all) {
            if (all.isEmpty()) return;
            Meet.untilStuck(other, Thread.State.BLOCKED);
            all.remove(0);
        }
    }
    void putInto(Map<Object, Object> all, Thread other) {
        synchronized (all) {
            if (all.containsKey("a")) return;
            Meet.untilStuck(other, Thread.State.BLOCKED);
            all.put("a", 1);
        }
    }
    void add(List<Object> all) { all.add("c"); }
    void replace(Map<Object, Object> all) { all.merge("a", 2, (one, two) -> two); }
    void setProperty() { properties.setProperty("a", "c"); }

    /** The other thread asks for the monitor while this one has it. */
    private static void run(Object monitor, Runnable other, java.util.function.Consumer<Thread> body) throws InterruptedException {
        Thread waits = new Thread(other);
        synchronized (monitor) {
            waits.start();
            body.accept(waits);
        }
        waits.join();
    }

    public static void main(String[] words) throws Exception {
        UnderTheirMonitors it = new UnderTheirMonitors();
        for (List<Object> all : Arrays.asList(it.list, it.vector)) run(all, () -> it.add(all), other -> it.takeOf(all, other));
        for (Map<Object, Object> all : Arrays.asList(it.map, it.table)) run(all, () -> it.replace(all), other -> it.putInto(all, other));
        run(it.properties, it::setProperty, other -> it.putInto(it.properties, other));
    }
}
