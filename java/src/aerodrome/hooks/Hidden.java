package aerodrome.hooks;

import aerodrome.names.Numbered;
import java.lang.reflect.Field;
import java.lang.reflect.Method;
import java.util.ArrayList;
import java.util.List;

/**
 * Hides from reflection what was added to classes, and so from all that looks at classes by it: serialization, proxies, frameworks.
 * The JDK's own methods call these with what they are about to give.
 */
public final class Hidden {
    /** What the names of added members begin with. */
    public static final String PREFIX = "aero$";

    private static final String WRITER = ".bytebuddy.";
    /** How far up the stack it stands. */
    private static final int CALLERS = 8;
    private static final StackWalker WALKER = StackWalker.getInstance();

    private Hidden() { }

    public static Field[] fields(Field[] all) {
        List<Field> left = new ArrayList<>(all.length);
        for (Field one : all) if (!one.getName().startsWith(PREFIX)) left.add(one);
        return left.size() == all.length ? all : left.toArray(new Field[0]);
    }

    public static Method[] methods(Method[] all) {
        List<Method> left = new ArrayList<>(all.length);
        for (Method one : all) if (!one.getName().startsWith(PREFIX)) left.add(one);
        return left.size() == all.length ? all : left.toArray(new Method[0]);
    }

    public static Class<?>[] interfaces(Class<?>[] all) {
        int last = all.length - 1;
        for (int one = last; one >= 0; one--) if (all[one] == Numbered.class) return isForWriter() ? all : without(all, one);
        return all;
    }
    /**
     * Byte Buddy, by which Mockito and other agents change classes that are loaded, gives a class the interfaces that reflection
     * shows, and the system refuses one that lacks an interface.
     */
    private static boolean isForWriter() {
        return WALKER.walk(frames -> frames.limit(CALLERS).anyMatch(one -> one.getClassName().contains(WRITER)));
    }
    private static Class<?>[] without(Class<?>[] all, int place) {
        Class<?>[] left = new Class<?>[all.length - 1];
        System.arraycopy(all, 0, left, 0, place);
        System.arraycopy(all, place + 1, left, place, left.length - place);
        return left;
    }
}
