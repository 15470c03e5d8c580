import java.util.*;
import java.util.concurrent.*;
// S: ConcurrentHashMap.compute is atomic, "the entire method invocation is performed atomically"; x is only touched within
public class ComputeOnce {
    final ConcurrentHashMap<String, List<Integer>> m = new ConcurrentHashMap<>();
    int x;
    void add(int i) {
        m.compute("k", (k, v) -> {
            if (v == null) v = new ArrayList<>();
            v.add(i);
            x++;
            return v;
        });
    }
    public static void main(String[] a) {
        ComputeOnce o = new ComputeOnce();
        int N = 500;
        Runnable r = () -> {
            for (int i = 0; i < N; i++) o.add(i);
        };
        Turns.run(r, r, r);
        System.out.println(o.x + " " + o.m.get("k").size());
    }
}
