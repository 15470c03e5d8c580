import java.lang.reflect.Field;
import java.lang.reflect.Method;

// V: a method that is called by reflection reads and writes a field, and another thread writes in between
public class ByReflection {
    private int count;
    private void add() {
        int before = count;
        Turns.say("read");
        Turns.await("written");
        count = before + 1;
    }
    static ByReflection it = new ByReflection();
    public static void main(String[] words) throws Exception {
        Method method = ByReflection.class.getDeclaredMethod("add");
        Turns.run(() -> {
            try {
                method.invoke(it);
            } catch (ReflectiveOperationException wrong) {
                throw new AssertionError(wrong);
            }
        }, () -> {
            Turns.await("read");
            it.count = 5;
            Turns.say("written");
        });
        Field field = ByReflection.class.getDeclaredField("count");
        System.out.println(field.getInt(it));
    }
}
