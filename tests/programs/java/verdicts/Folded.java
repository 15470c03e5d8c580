import java.util.concurrent.atomic.AtomicReference;

// S: changes of an immutable list by a function, which is called again where another thread was faster
public class Folded {
    private static final class Node {
        final int value;
        final Node next;

        Node(int value, Node next) {
            this.value = value;
            this.next = next;
        }
    }
    private final AtomicReference<Node> first = new AtomicReference<>();

    void add(int value) { first.updateAndGet(next -> new Node(value, next)); }
    int length() {
        int length = 0;
        for (Node one = first.get(); one != null; one = one.next) length++;
        return length;
    }

    public static void main(String[] words) throws Exception {
        Folded it = new Folded();
        Meet.run(3, me -> {
            for (int one = 0; one < 300; one++) {
                it.add(one);
                if (one % 50 == 0) it.length();
            }
        });
        if (it.length() != 900) throw new AssertionError();
    }
}
