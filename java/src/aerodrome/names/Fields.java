package aerodrome.names;

import aerodrome.Options;
import java.lang.ref.WeakReference;
import java.lang.reflect.Modifier;
import java.util.ArrayList;
import java.util.List;
import java.util.Map;
import java.util.Set;
import java.util.concurrent.ConcurrentHashMap;
import java.util.concurrent.CopyOnWriteArrayList;

/**
 * The fields of the instrumented classes, and the methods of those that extend others. An access may name a class that inherits the
 * field: its name is by the declaring one. Several loaders may have classes of one name, so a class is known by its name and its loader.
 */
public final class Fields {
    private static final int MOST = 220;

    private static final class Known {
        final WeakReference<ClassLoader> loader;
        final String above;
        final String[] interfaces;
        /** By name, how it was declared: the flags of its class file. */
        final Map<String, Integer> fields = new ConcurrentHashMap<>();
        /** The names and descriptors of its methods. */
        final Set<String> methods = ConcurrentHashMap.newKeySet();

        Known(ClassLoader loader, String above, String[] interfaces) {
            this.loader = new WeakReference<>(loader);
            this.above = above;
            this.interfaces = interfaces;
        }
    }

    private static final Map<String, List<Known>> CLASSES = new ConcurrentHashMap<>();

    private Fields() { }

    /** Notes a class, whose fields follow. Names of classes are a/b/C. */
    public static void note(ClassLoader loader, String name, String above, String[] interfaces) {
        List<Known> all = CLASSES.computeIfAbsent(name, one -> new CopyOnWriteArrayList<>());
        all.removeIf(one -> one.loader.get() == null || one.loader.get() == loader);
        all.add(new Known(loader, above, interfaces));
    }
    public static void noteField(ClassLoader loader, String of, String field, int access) {
        known(loader, of).fields.put(field, access);
    }

    public static void noteMethod(ClassLoader loader, String of, String method) { known(loader, of).methods.add(method); }
    /** Returns whether the class itself has the method, which was noted. */
    public static boolean hasMethod(Class<?> of, String method) {
        Known known = known(of.getClassLoader(), of.getName().replace('.', '/'));
        return known != null && known.methods.contains(method);
    }

    /** Whether no class is instrumented. */
    public static boolean areNone() { return CLASSES.isEmpty(); }

    /** What the loader itself has defined, or null. */
    private static Known known(ClassLoader loader, String name) {
        for (Known one : CLASSES.getOrDefault(name, List.of())) if (one.loader.get() == loader) return one;
        return null;
    }
    /** What the name leads the loader's classes to, as far as that can be said without loading it, or null. */
    private static Known seen(ClassLoader by, String name) {
        List<Known> all = CLASSES.getOrDefault(name, List.of());
        for (ClassLoader one = by; one != null && all.size() > 1; one = one.getParent()) {
            Known known = known(one, name);
            if (known != null) return known;
        }
        for (Known one : all) return one;
        return null;
    }

    /** Whether the class itself has the field. */
    public static boolean has(ClassLoader by, String of, String field) {
        Known known = seen(by, of);
        return known != null && known.fields.containsKey(field);
    }

    /** Whether it is known to be volatile. */
    public static boolean isVolatile(ClassLoader by, String of, String field) {
        return Modifier.isVolatile(access(by, declaring(by, of, field), field));
    }
    private static int access(ClassLoader by, String of, String field) {
        Known known = seen(by, of);
        return known == null ? 0 : known.fields.getOrDefault(field, 0);
    }

    /** The class that has the field: this one, or one that it extends or implements; itself where that isn't known. */
    private static String declaring(ClassLoader by, String of, String field) {
        String found = find(by, of, field);
        return found == null ? of : found;
    }
    private static String find(ClassLoader by, String of, String field) {
        Known known;
        for (String name = of; name != null && (known = seen(by, name)) != null; name = known.above) {
            if (known.fields.containsKey(field)) return name;
            for (String one : known.interfaces) {
                String found = find(by, one, field);
                if (found != null) return found;
            }
        }
        return null;
    }

    /** The same for a class that is there, or null. */
    private static Class<?> declaring(Class<?> of, String field) {
        for (Class<?> one = of; one != null; one = one.getSuperclass()) {
            Known known = known(one.getClassLoader(), one.getName().replace('.', '/'));
            if (known == null) return null;
            if (known.fields.containsKey(field)) return one;
            for (Class<?> above : one.getInterfaces()) {
                Class<?> found = declaring(above, field);
                if (found != null) return found;
            }
        }
        return null;
    }

    /** Returns the class that such a class extends, and then its interfaces; an empty list if the class isn't known. */
    public static List<String> above(ClassLoader by, String of) {
        Known known = seen(by, of);
        if (known == null || known.above == null) return List.of();
        List<String> above = new ArrayList<>();
        above.add(known.above);
        above.addAll(List.of(known.interfaces));
        return above;
    }

    /** What the field of an object is called before the object's number: `Bank.balance`. */
    static String shown(ClassLoader by, String of, String field) {
        return Text.clean(Text.withoutPackage(declaring(by, of, field)) + "." + field, MOST);
    }
    /** What a static field is called: `bank.Bank.total`, or `bank.Bank.total@57` of a class that isn't the first one of its name. */
    static String shown(Class<?> of, String field) {
        Class<?> found = declaring(of, field), declaring = found == null ? of : found;
        return Text.clean(declaring.getName() + "." + field, MOST) + ClassNames.twin(declaring);
    }
    /** The same where the name doesn't lead to a class. */
    static String shownByName(ClassLoader by, String of, String field) {
        return Text.clean(declaring(by, of, field).replace('/', '.') + "." + field, MOST);
    }

    /** Whether accesses of the field are logged: final ones only where the options ask for them. */
    public static boolean isLogged(ClassLoader by, String of, String field) {
        return Options.finals || !Modifier.isFinal(access(by, declaring(by, of, field), field));
    }
}
