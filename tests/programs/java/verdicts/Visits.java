import java.util.*;
import java.util.concurrent.*;
// S: changes of a map that may find nothing to change; it prints how often it is asked for equals and hashCode
public class Visits {
    static int eq, hc;
    static class K {
        final int i;
        K(int i) {
            this.i = i;
        }
        public int hashCode() {
            hc++;
            return i;
        }
        public boolean equals(Object o) {
            eq++;
            return o instanceof K && ((K) o).i == i;
        }
    }
    public static void main(String[] a) {
        ConcurrentHashMap<K, String> m = new ConcurrentHashMap<>();
        m.putIfAbsent(new K(1), "a");
        m.putIfAbsent(new K(1), "b");
        m.computeIfAbsent(new K(2), k -> "c");
        m.computeIfAbsent(new K(2), k -> "d");
        m.merge(new K(4), "i", String::concat);
        System.out.println(m.remove(new K(3)) + m.remove(new K(1)) + m.remove(new K(2), "d") + m.replace(new K(2), "c", "e"));
        System.out.println(m.replace(new K(2), "f") + m.replace(new K(3), "g") + m.computeIfPresent(new K(2), (k, v) -> v + "h"));
        System.out.println(m.values() + " " + eq + " " + hc);
    }
}
