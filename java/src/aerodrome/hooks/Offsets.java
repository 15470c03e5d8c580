package aerodrome.hooks;

import aerodrome.log.Line;
import aerodrome.names.FieldName;
import java.lang.reflect.Field;
import java.lang.reflect.Modifier;
import java.security.AccessController;
import java.security.PrivilegedAction;
import java.util.HashMap;
import java.util.Map;
import sun.misc.Unsafe;

/**
 * What Unsafe accesses: an element, or a field by the name that its other accesses have. Unsafe is in a module of its own, which
 * isn't there for each program: so no other class names it, and this one is loaded once there is an Unsafe.
 */
final class Offsets {
    private Offsets() { }

    private static final ClassValue<Map<Long, FieldName>> FIELDS = new ClassValue<Map<Long, FieldName>>() {
        // (a program with a SecurityManager may not look for fields)
        @SuppressWarnings("removal")
        @Override protected Map<Long, FieldName> computeValue(Class<?> of) {
            return AccessController.doPrivileged((PrivilegedAction<Map<Long, FieldName>>) () -> fields(of));
        }
        private Map<Long, FieldName> fields(Class<?> of) {
            Map<Long, FieldName> fields = new HashMap<>();
            try {
                Field known = Unsafe.class.getDeclaredField("theUnsafe");
                known.setAccessible(true);
                Unsafe unsafe = (Unsafe) known.get(null);
                for (Class<?> one = of; one != null; one = one.getSuperclass())
                    for (Field field : one.getDeclaredFields()) {
                        if (Modifier.isStatic(field.getModifiers())) continue;
                        fields.put(unsafe.objectFieldOffset(field), new FieldName(one, field.getName(), false));
                    }
            } catch (Throwable unknown) {
                // An offset is the name then.
            }
            return fields;
        }
    };

    static void put(Line line, Object receiver, Object object, long offset) {
        Unsafe unsafe = (Unsafe) receiver;
        Class<?> of = object.getClass();
        FieldName field = of.isArray() ? null : FIELDS.get(of).get(offset);
        if (field != null) {
            field.put(line, object);
            return;
        }
        Events.putObject(line, object);
        if (of.isArray()) Accesses.putIndex(line, (offset - unsafe.arrayBaseOffset(of)) / unsafe.arrayIndexScale(of));
        else line.put('+').put(Math.max(offset, 0));
    }
}
