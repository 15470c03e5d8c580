// V: a method of a generic base is overridden, so it is called by the one that the compiler makes
public class BridgedMethod {
    static abstract class Box<T extends Number> {
        abstract T change(T by);
    }
    static class Counter extends Box<Integer> {
        Integer value = 0;
        @Override Integer change(Integer by) {
            Integer before = value;
            if (by == 1) {
                Turns.say("read");
                Turns.await("changed");
            }
            return value = before + by;
        }
    }
    static <T extends Number> T change(Box<T> box, T by) { return box.change(by); }
    public static void main(String[] words) {
        Counter counter = new Counter();
        Turns.run(() -> change(counter, 1), () -> {
            Turns.await("read");
            change(counter, 5);
            Turns.say("changed");
        });
        System.out.println(counter.value);
    }
}
