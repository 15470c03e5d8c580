import java.lang.invoke.MethodHandles;
import java.lang.invoke.VarHandle;

// S: each access of a handle, by whatever mode, is one step
public class ModesOfHandles {
    int number;
    static final VarHandle NUMBER, ELEMENT = MethodHandles.arrayElementVarHandle(long[].class);
    static {
        try {
            NUMBER = MethodHandles.lookup().findVarHandle(ModesOfHandles.class, "number", int.class);
        } catch (ReflectiveOperationException impossible) {
            throw new AssertionError(impossible);
        }
    }
    static final long[] array = new long[2];
    int get() { return (int) NUMBER.getOpaque(this); }
    void set(int to) { NUMBER.setRelease(this, to); }
    int add() { return (int) NUMBER.getAndAdd(this, 1); }
    int or() { return (int) NUMBER.getAndBitwiseOrAcquire(this, 4); }
    boolean swap() { return NUMBER.weakCompareAndSetPlain(this, 1, 2); }
    long element() { return (long) ELEMENT.getAndSet(array, 1, 5L); }
    public static void main(String[] words) throws Exception {
        ModesOfHandles it = new ModesOfHandles();
        Meet.run(3, me -> {
            for (int one = 0; one < 20; one++) {
                it.add();
                it.get();
                it.or();
                it.swap();
                it.set(one);
                it.element();
            }
        });
        System.out.println("ok");
    }
}
