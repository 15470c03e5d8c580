import java.lang.invoke.MethodHandles;
import java.lang.invoke.VarHandle;
import java.nio.ByteBuffer;
import java.nio.ByteOrder;
import java.util.ArrayList;
import java.util.Collection;
import java.util.HashSet;
import java.util.Iterator;
import java.util.LinkedList;
import java.util.List;
import java.util.Map;
import java.util.NavigableMap;
import java.util.NavigableSet;
import java.util.Set;
import java.util.concurrent.ConcurrentHashMap;
import java.util.concurrent.ConcurrentSkipListMap;
import java.util.concurrent.ConcurrentSkipListSet;
import java.util.concurrent.LinkedBlockingQueue;
import java.util.function.Function;
import java.util.function.Predicate;
import java.util.function.Supplier;

/** Calls whose class isn't the one that has the method, handles of fields that are made of others, and a thread with a method of its own. */
public class Forms {
    static class Names extends ArrayList<String> { }
    static class Quiet extends Thread {
        @Override public State getState() { return State.RUNNABLE; }
    }

    volatile int first, second;

    static void references() {
        Names names = new Names();
        Predicate<String> add = names::add;
        add.test("a");
        HashSet<String> set = new HashSet<>(names);
        Predicate<Collection<?>> has = set::containsAll;
        LinkedList<String> list = new LinkedList<>(names);
        Supplier<Iterator<String>> all = list::iterator;
        LinkedBlockingQueue<String> queue = new LinkedBlockingQueue<>();
        names.forEach(queue::add);
        Function<LinkedBlockingQueue<String>, String> take = LinkedBlockingQueue::remove;
        System.out.println(has.test(names) + " " + all.get().next() + " " + take.apply(queue));
    }

    static void handles() throws ReflectiveOperationException {
        MethodHandles.Lookup lookup = MethodHandles.lookup();
        VarHandle first = lookup.unreflectVarHandle(Forms.class.getDeclaredField("first"));
        VarHandle second = lookup.findVarHandle(Forms.class, "second", int.class).withInvokeExactBehavior();
        Forms of = new Forms();
        first.setVolatile(of, 1);
        second.setVolatile(of, 2);
        of.first = 3;
        of.second = 4;
        VarHandle numbers = MethodHandles.byteBufferViewVarHandle(long[].class, ByteOrder.nativeOrder());
        ByteBuffer buffer = ByteBuffer.allocateDirect(16);
        numbers.setVolatile(buffer, 0, 5L);
        numbers.setVolatile(buffer, 8, 6L);
    }

    static void collections() {
        Set<String> plain = ConcurrentHashMap.newKeySet();
        ConcurrentHashMap.KeySetView<String, Boolean> view = ConcurrentHashMap.newKeySet();
        plain.add("a");
        view.add("a");
        ConcurrentSkipListMap<Integer, String> sorted = new ConcurrentSkipListMap<>(Map.of(1, "a", 2, "b"));
        sorted.floorKey(1);
        sorted.pollFirstEntry();
        NavigableMap<Integer, String> map = sorted;
        map.floorKey(1);
        map.pollFirstEntry();
        map.descendingMap();
        ConcurrentSkipListSet<String> names = new ConcurrentSkipListSet<>(List.of("a", "b"));
        names.floor("a");
        names.pollFirst();
        NavigableSet<String> same = names;
        same.subSet("a", "b");
        same.pollLast();
    }

    public static void main(String[] words) throws Exception {
        references();
        handles();
        collections();
        Quiet thread = new Quiet();
        thread.start();
        thread.join();
    }
}
