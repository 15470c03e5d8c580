import java.util.concurrent.atomic.AtomicStampedReference;

// V: the top of a stack is popped and pushed again between a look and a change, which fails by its stamp; blames TopWithStamps.pop
public class TopWithStamps {
    static class Node {
        final String name;
        final Node below;

        Node(String name, Node below) {
            this.name = name;
            this.below = below;
        }
    }

    private final AtomicStampedReference<Node> top = new AtomicStampedReference<>(null, 0);

    boolean push(String name) {
        int[] stamp = new int[1];
        Node old = top.get(stamp);
        return top.compareAndSet(old, new Node(name, old), stamp[0], stamp[0] + 1);
    }

    Node pop(Runnable between) {
        int[] stamp = new int[1];
        Node old = top.get(stamp);
        between.run();
        return top.compareAndSet(old, old.below, stamp[0], stamp[0] + 1) ? old : null;
    }

    public static void main(String[] words) {
        TopWithStamps stack = new TopWithStamps();
        stack.push("a");
        stack.push("b");
        Turns.run(() -> {
            Node mine = stack.pop(() -> {
                Turns.say("looked");
                Turns.await("changed");
            });
            System.out.println(mine == null ? "again" : mine.name);
        }, () -> {
            Turns.await("looked");
            stack.pop(() -> { });
            stack.push("b");
            Turns.say("changed");
        });
    }
}
