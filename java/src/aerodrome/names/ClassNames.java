package aerodrome.names;

import java.util.HashSet;
import java.util.Set;

/** What an object's class is called in the names of objects: without its package, `int[]` of an array. */
public final class ClassNames {
    /** A name may have two of them, and two numbers. */
    private static final int MOST = 100, MOST_MONITOR = 200;
    private static final String LAMBDA = "$$Lambda";
    private static final ClassValue<byte[]> NAMES = new ClassValue<byte[]>() {
        @Override protected byte[] computeValue(Class<?> of) { return Text.bytes(Text.clean(shown(of), MOST)); }
    };

    private static final ClassValue<byte[]> MONITORS = new ClassValue<byte[]>() {
        @Override protected byte[] computeValue(Class<?> of) {
            return Text.bytes(Text.clean(of.getName(), MOST_MONITOR) + ".class" + twin(of));
        }
    };
    /** The names that a class has. One that is gone keeps its own. */
    private static final Set<String> TAKEN = new HashSet<>();

    private ClassNames() { }

    public static byte[] of(Class<?> of) { return NAMES.get(of); }

    /** What the class itself is called, as a monitor: `bank.Bank.class`. */
    public static byte[] monitor(Class<?> of) { return MONITORS.get(of); }

    /** What tells the class from others of its name, by other loaders: nothing of the first one, and its number of the others. */
    static String twin(Class<?> of) {
        Numbers.Entry entry = Numbers.entry(of);
        synchronized (TAKEN) {
            if (entry.tied == null) entry.tied = TAKEN.add(of.getName()) ? "" : "@" + Numbers.of(of);
            return (String) entry.tied;
        }
    }

    private static String shown(Class<?> of) {
        if (of.isArray()) return shown(of.getComponentType()) + "[]";
        String name = of.getName();
        int hidden = name.indexOf('/'), lambda = name.indexOf(LAMBDA);
        // The number behind it differs from run to run.
        if (lambda > 0) hidden = lambda + LAMBDA.length();
        return Text.withoutPackage((hidden < 0 ? name : name.substring(0, hidden)).replace('.', '/'));
    }
}
