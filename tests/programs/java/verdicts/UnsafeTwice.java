import java.lang.reflect.Field;
import sun.misc.Unsafe;

// V: a get and a put by Unsafe, with those of another thread between, of a field that others access by its name
public class UnsafeTwice {
    int number;
    static final Unsafe UNSAFE;
    static final long NUMBER;
    static {
        try {
            Field known = Unsafe.class.getDeclaredField("theUnsafe");
            known.setAccessible(true);
            UNSAFE = (Unsafe) known.get(null);
            NUMBER = UNSAFE.objectFieldOffset(UnsafeTwice.class.getDeclaredField("number"));
        } catch (ReflectiveOperationException impossible) {
            throw new AssertionError(impossible);
        }
    }
    void add() {
        int before = UNSAFE.getIntVolatile(this, NUMBER);
        Turns.say("read");
        Turns.await("written");
        UNSAFE.putInt(this, NUMBER, before + 1);
    }
    void plain() { number++; }
    public static void main(String[] words) {
        UnsafeTwice it = new UnsafeTwice();
        Turns.run(it::add, () -> {
            Turns.await("read");
            it.plain();
            Turns.say("written");
        });
    }
}
