import java.util.concurrent.locks.ReentrantLock;
import java.util.function.Consumer;

// S: two threads walk a sorted list hand over hand, so the second one never overtakes the first
public class HandOverHand {
    static class Node {
        final int value;
        final ReentrantLock lock = new ReentrantLock();
        Node next;

        Node(int value, Node next) {
            this.value = value;
            this.next = next;
        }
    }

    private final Node head = new Node(Integer.MIN_VALUE, new Node(Integer.MAX_VALUE, null));

    void insert(int value, Consumer<ReentrantLock> within) {
        Node before = head;
        before.lock.lock();
        Node after = before.next;
        after.lock.lock();
        while (after.value < value) {
            before.lock.unlock();
            before = after;
            within.accept(before.lock);
            after = after.next;
            after.lock.lock();
        }
        before.next = new Node(value, after);
        after.lock.unlock();
        before.lock.unlock();
    }

    public static void main(String[] words) {
        HandOverHand list = new HandOverHand();
        Consumer<ReentrantLock> nothing = lock -> { };
        list.insert(10, nothing);
        list.insert(20, nothing);
        list.insert(30, nothing);
        Turns.run(() -> list.insert(25, lock -> {
            Turns.say("walks");
            while (!lock.hasQueuedThreads()) Thread.yield();
        }), () -> {
            Turns.await("walks");
            list.insert(15, nothing);
        });
        StringBuilder all = new StringBuilder();
        for (Node one = list.head.next; one.next != null; one = one.next) all.append(one.value).append(' ');
        System.out.println(all);
    }
}
