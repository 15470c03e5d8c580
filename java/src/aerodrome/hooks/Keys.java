package aerodrome.hooks;

import java.lang.reflect.Field;
import java.lang.reflect.Method;
import java.lang.reflect.Modifier;
import java.util.Set;

/** How keys of a class are told apart without calling code of the program. */
enum Keys {
    /** By the hash alone, or by it and the class. */
    BY_HASH, BY_HASH_AND_CLASS, BY_IDENTITY,
    /** All of them have one name. */
    NOT;

    private static final Set<String> HASHED = Set.of("java.lang.String", "java.lang.Integer", "java.lang.Long", "java.lang.Short",
            "java.lang.Byte", "java.lang.Character");
    private static final Set<String> VALUES = Set.of("java.lang.Boolean", "java.lang.Double", "java.lang.Float", "java.util.UUID",
            "java.util.Locale", "java.util.Currency", "java.net.URI", "java.math.BigInteger", "java.math.BigDecimal",
            "java.io.File", "java.net.Inet4Address", "java.net.Inet6Address", "sun.nio.fs.UnixPath", "sun.nio.fs.WindowsPath");

    private static final ClassValue<Keys> OF = new ClassValue<Keys>() {
        @Override protected Keys computeValue(Class<?> of) {
            try {
                if (of.getClassLoader() == null && HASHED.contains(of.getName())) return BY_HASH;
                Class<?> by = of.getMethod("equals", Object.class).getDeclaringClass();
                if (by == Object.class || by == Enum.class) return BY_IDENTITY;
                return isValue(of) ? BY_HASH_AND_CLASS : NOT;
            } catch (Throwable unknown) {
                return NOT;
            }
        }
    };

    static Keys of(Object key) { return key == null ? NOT : OF.get(key.getClass()); }

    /** Returns whether the key has no natural order, or one in which it is equal to exactly the keys that it `equals`. */
    static boolean isNatural(Object key) {
        Class<?> of = key.getClass();
        return of.getClassLoader() == null && !of.getName().equals("java.math.BigDecimal") || key instanceof Enum;
    }

    /** One whose hash is made by the JDK's code alone. */
    private static boolean isValue(Class<?> of) throws ReflectiveOperationException {
        if (of.getClassLoader() != null) return isRecord(of) && isPlainRecord(of);
        return VALUES.contains(of.getName()) || of.getName().startsWith("java.time.") && Modifier.isFinal(of.getModifiers());
    }
    /** There are records from Java 16 on. */
    private static boolean isRecord(Class<?> of) {
        return of.getSuperclass() != null && of.getSuperclass().getName().equals("java.lang.Record");
    }
    /** The methods that the compiler makes are final, those that a program has are rarely so. */
    private static boolean isPlainRecord(Class<?> of) throws ReflectiveOperationException {
        for (Method one : new Method[] {of.getMethod("hashCode"), of.getMethod("equals", Object.class)})
            if (!Modifier.isFinal(one.getModifiers())) return false;
        for (Field one : of.getDeclaredFields())
            if (!Modifier.isStatic(one.getModifiers()) && !isPlain(one.getType())) return false;
        return true;
    }
    private static boolean isPlain(Class<?> component) throws ReflectiveOperationException {
        if (component.isPrimitive() || component.isEnum()) return true;
        // An object of a class that isn't final may be one of a class below it.
        if (!Modifier.isFinal(component.getModifiers())) return false;
        return component.getClassLoader() == null && HASHED.contains(component.getName()) || isValue(component);
    }
}
