import java.util.*;
import java.util.concurrent.atomic.*;
// S: messages of NullPointerExceptions, some of which name other variables than natively
public class NullMessages {
    int f;
    int[] arr;
    Object[] oa;
    List<String> list;
    AtomicInteger ai;
    NullMessages next;
    static void t(Runnable r) {
        try {
            r.run();
        } catch (RuntimeException e) {
            System.out.println(e.getMessage());
        }
    }
    public static void main(String[] a) {
        NullMessages o = new NullMessages();
        t(() -> {
            int x = o.next.f;
        });
        t(() -> {
            o.next.f = 3;
        });
        t(() -> {
            o.arr[1] = 2;
        });
        t(() -> {
            int x = o.arr[1];
        });
        t(() -> {
            o.oa[0] = "";
        });
        t(() -> o.list.add("x"));
        t(() -> o.list.size());
        t(() -> o.ai.get());
        t(() -> {
            synchronized (o.next) { }
        });
        t(() -> System.out.println(o.arr.length));
        t(() -> o.next.next.f++);
        t(() -> {
            o.arr = new int[2];
            o.arr[2] = 1;
        });
        t(() -> {
            o.oa = new String[1];
            o.oa[0] = 1;
        });
        t(() -> {
            Object q = "s";
            Integer i = (Integer) q;
        });
        t(() -> System.arraycopy(o.arr, 0, new int[1], 0, 2));
        t(() -> new ArrayList<>(List.of(1)).get(3));
        t(() -> {
            String s = null;
            s.length();
        });
    }
}
