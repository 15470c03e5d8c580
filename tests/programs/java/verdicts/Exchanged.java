import java.lang.invoke.MethodHandles;
import java.lang.invoke.VarHandle;

// V: an exchange that finds what it wants writes, even a float that is no number, so it splits another block's two looks
public class Exchanged {
    static float value = Float.NaN;
    static final VarHandle VALUE;
    static {
        try {
            VALUE = MethodHandles.lookup().findStaticVarHandle(Exchanged.class, "value", float.class);
        } catch (ReflectiveOperationException impossible) {
            throw new AssertionError(impossible);
        }
    }
    static float look() { return (float) VALUE.getVolatile(); }
    static float twice() {
        float first = look();
        Turns.say("once");
        Turns.await("other");
        return first + look();
    }
    public static void main(String[] words) {
        Turns.run(Exchanged::twice, () -> {
            Turns.await("once");
            float found = (float) VALUE.compareAndExchange(Float.NaN, 1f);
            Turns.say("other");
        });
    }
}
