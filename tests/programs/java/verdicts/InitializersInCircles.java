// S: initializers of classes that need each other, and classes that several threads load at once
public class InitializersInCircles {
    static class One {
        static int value = Two.value + 1;
        static int get() { return value; }
    }
    static class Two {
        static int value = One.value + 10;
        static int get() { return value; }
    }
    enum Late {
        A, B;
        static final Late[] ALL = values();
        int used;
        synchronized int use() { return ++used; }
    }
    static int both() { return One.get() + Two.get(); }
    public static void main(String[] words) throws Exception {
        both();
        Meet.run(4, me -> {
            Meet.all(4);
            for (Late one : Late.ALL) one.use();
            both();
        });
        System.out.println(both());
    }
}
