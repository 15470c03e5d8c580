import java.io.ByteArrayInputStream;
import java.io.ByteArrayOutputStream;
import java.io.ObjectInputStream;
import java.io.ObjectOutputStream;
import java.io.ObjectStreamClass;
import java.io.Serializable;
import java.lang.reflect.Field;
import java.lang.reflect.Method;
import java.lang.reflect.Proxy;
import java.util.ArrayList;
import java.util.Arrays;
import java.util.Iterator;
import java.util.List;
import java.util.Map;
import java.util.HashMap;
import java.util.TreeSet;
import java.util.function.Function;
import java.util.function.Supplier;

/** Classes of all shapes, and what reflection and serialization say of them. It writes the same with the agent and without. */
public class Shapes {
    record Point(int x, long y) {
        static int made;

        Point {
            if (x < 0) throw new IllegalArgumentException();
        }
        int sum() {
            made++;
            return x + (int) y;
        }
    }
    enum Color {
        RED { @Override int next() { return ++count; } },
        BLUE;

        int count;

        int next() { return count += 2; }
    }
    interface Valued {
        int CONSTANT = Integer.parseInt("7");

        default int value() { return CONSTANT + own(); }
        int own();
        static int constant() { return CONSTANT; }
    }
    class Inner implements Valued {
        int own = 3;

        @Override public int own() { return own + outer; }
        class Deep {
            int both = own + outer;
        }
    }
    static class Base<T> {
        private final T value;
        private int same = 1;

        Base(T value) { this.value = value; }
        T get() { return value; }
        int same() { return same; }
    }
    static class Derived extends Base<String> {
        private int same = 2;

        Derived(int number, boolean first) {
            super(first ? "y" + number : number > 3 ? "z" : new String(new char[] {'a', 'b'}));
            same = number;
        }
        @Override String get() { return super.get() + same + super.same(); }
    }
    static class Copied implements Cloneable {
        int count;

        Copied copy() throws CloneNotSupportedException {
            count = 1;
            Copied made = (Copied) clone();
            made.count = 2;
            return made;
        }
    }
    static class Kept implements Serializable, Valued {
        int first = 1;
        transient int second = 2;
        private String third = "q";

        @Override public int own() { return first; }
        void put(Map<String, Integer> map) { map.put(third, first); }
    }

    int outer = 4;
    long[] longs = new long[2];
    double[] doubles = new double[2];
    byte[][] bytes = new byte[2][2];
    char[] letters = {'x'};
    boolean[] truths = new boolean[1];
    float single;
    short[] shorts = new short[1];

    int choose(String word, Object object) {
        int result;
        switch (word) {
            case "a": result = 1; break;
            case "b": result = 2; break;
            default: result = 3;
        }
        if (object instanceof String text && text.length() > 1) result += text.length();
        return result;
    }
    synchronized long mix(long first, double second, int... more) {
        longs[0] += first;
        doubles[1] = second * longs[0];
        bytes[1][0] ^= 3;
        letters[0]++;
        truths[0] |= true;
        single += 1.5f;
        shorts[0] = (short) more.length;
        longs[1]++;
        outer <<= 1;
        return longs[0]-- + (long) doubles[1] + bytes[1][0] + letters[0] + (truths[0] ? 1 : 0) + (long) single + shorts[0] + outer--;
    }

    static void reflect(Class<?> of) throws Exception {
        List<String> members = new ArrayList<>();
        for (Field one : of.getDeclaredFields()) members.add(one.toString());
        for (Method one : of.getDeclaredMethods()) members.add(one.toString());
        for (Method one : of.getMethods()) if (one.getDeclaringClass() != Object.class) members.add("public " + one.getName());
        members.removeIf(one -> one.contains("lambda$"));
        System.out.println(of.getSimpleName() + " " + new TreeSet<>(members) + Arrays.toString(of.getInterfaces())
                + Arrays.toString(of.getGenericInterfaces()) + " " + of.getModifiers());
    }
    static Object through(Object object) throws Exception {
        ByteArrayOutputStream out = new ByteArrayOutputStream();
        new ObjectOutputStream(out).writeObject(object);
        return new ObjectInputStream(new ByteArrayInputStream(out.toByteArray())).readObject();
    }
    @SuppressWarnings("unchecked")
    static void serialize() throws Exception {
        System.out.println(ObjectStreamClass.lookup(Kept.class).getSerialVersionUID() + " " + ObjectStreamClass.lookup(Color.class));
        Kept kept = (Kept) through(new Kept());
        Function<Map<String, Integer>, Integer> size = (Function<Map<String, Integer>, Integer> & Serializable) Map::size;
        size = (Function<Map<String, Integer>, Integer>) through(size);
        System.out.println(kept.first + kept.second + kept.third + size.apply(new HashMap<>()));
        Object proxy = Proxy.newProxyInstance(Shapes.class.getClassLoader(), Kept.class.getInterfaces(), (it, method, words) -> 11);
        System.out.println(((Valued) proxy).own() + Arrays.toString(proxy.getClass().getInterfaces()));
    }
    static void arrays() {
        int[] from = {1, 2, 3, 4};
        System.arraycopy(from, 0, from, 1, 3);
        System.out.println(Arrays.toString(from) + from.clone().length);
        try {
            System.arraycopy(from, 0, new long[1], 0, 1);
        } catch (ArrayStoreException wrong) {
            System.out.print("another type, ");
        }
        try {
            System.arraycopy(from, 0, from, 3, 3);
        } catch (IndexOutOfBoundsException wrong) {
            System.out.println("too many");
        }
        List<Integer> list = new ArrayList<>(List.of(3, 1, 2));
        list.sort(null);
        Iterator<Integer> some = list.iterator();
        some.next();
        some.remove();
        list.remove(0);
        list.remove(Integer.valueOf(3));
        System.out.println(list);
    }

    public static void main(String[] words) throws Exception {
        Shapes it = new Shapes();
        Inner inner = it.new Inner();
        System.out.println(new Point(1, 2).sum() + " " + new Point(1, 2) + new Point(1, 2).equals(new Point(1, 2))
                + Arrays.toString(Point.class.getRecordComponents()));
        System.out.println(Color.RED.next() + Color.BLUE.next() + Color.valueOf("RED").ordinal() + " " + inner.value()
                + inner.new Deep().both + Valued.constant());
        System.out.println(new Derived(2, true).get() + new Derived(2, false).get() + new Derived(5, false).get()
                + it.mix(5, 2.5, 1, 2, 3) + it.choose("b", "long"));
        Supplier<Supplier<Integer>> nested = () -> () -> it.outer + inner.own;
        System.out.println(nested.get().get() + " " + new Copied().copy().count);
        for (Class<?> one : new Class<?>[] {Kept.class, Point.class, Color.class, Valued.class, Inner.class, Derived.class}) reflect(one);
        serialize();
        arrays();
    }
}
