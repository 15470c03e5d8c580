import java.util.*;
// V: a method reads a property twice, and another thread removes it by the view of the keys in between
public class PropertiesByKeys {
    static final Properties all = new Properties();
    static boolean twice() {
        String one = all.getProperty("a");
        Turns.say("one");
        Turns.await("removed");
        return one == all.getProperty("a");
    }
    static void remove() {
        all.keySet().remove("a");
    }
    public static void main(String[] x) {
        all.setProperty("a", "b");
        Turns.run(PropertiesByKeys::twice, () -> {
            Turns.await("one");
            remove();
            Turns.say("removed");
        });
    }
}
