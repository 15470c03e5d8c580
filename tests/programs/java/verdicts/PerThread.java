// S: what a ThreadLocal and an inherited one hold belongs to each thread alone
public class PerThread {
    static final ThreadLocal<int[]> OWN = ThreadLocal.withInitial(() -> new int[1]);
    static final InheritableThreadLocal<StringBuilder> LEFT = new InheritableThreadLocal<>() {
        @Override protected StringBuilder childValue(StringBuilder parents) { return new StringBuilder(parents); }
    };
    static int count(int me) {
        OWN.get()[0]++;
        LEFT.get().append(me);
        Turns.say("counted " + me);
        Turns.await("counted " + (1 - me));
        LEFT.get().append(me);
        return ++OWN.get()[0] + LEFT.get().length();
    }
    public static void main(String[] words) {
        LEFT.set(new StringBuilder("main"));
        Turns.run(() -> System.out.println(count(0)), () -> System.out.println(count(1)));
        LEFT.remove();
    }
}
