package aerodrome.hooks;

import java.lang.invoke.MethodHandles;
import java.lang.invoke.VarHandle;
import java.lang.reflect.Field;
import java.util.Hashtable;
import java.util.Properties;
import java.util.Vector;

/**
 * The monitors of collections that take one in each call, as Vector and what Collections.synchronizedList makes. A program takes the
 * same monitor round several calls. So another thread's call, which waits for it, must be logged once it has it, and no sooner.
 */
public final class Monitors {
    private static VarHandle ofCollection, ofMap;

    private Monitors() { }

    /** Needs java.util to be open to this module. */
    public static void start() throws ReflectiveOperationException {
        ofCollection = handle("java.util.Collections$SynchronizedCollection");
        ofMap = handle("java.util.Collections$SynchronizedMap");
    }
    private static VarHandle handle(String name) throws ReflectiveOperationException {
        Class<?> of = Class.forName(name);
        Field field = of.getDeclaredField("mutex");
        return MethodHandles.privateLookupIn(of, MethodHandles.lookup()).unreflectVarHandle(field);
    }

    /** How the calls of a class take a monitor. */
    private enum Way { NONE, ITSELF, WRITES, OF_COLLECTION, OF_MAP }

    /** A class of the program may have other methods, which wait for something else. */
    private static final ClassValue<Way> WAYS = new ClassValue<Way>() {
        @Override protected Way computeValue(Class<?> of) {
            if (of.getClassLoader() != null) return Way.NONE;
            if (Properties.class.isAssignableFrom(of)) return Way.WRITES;
            if (Vector.class.isAssignableFrom(of) || Hashtable.class.isAssignableFrom(of)) return Way.ITSELF;
            if (ofCollection.coordinateTypes().get(0).isAssignableFrom(of)) return Way.OF_COLLECTION;
            return ofMap.coordinateTypes().get(0).isAssignableFrom(of) ? Way.OF_MAP : Way.NONE;
        }
    };

    /** Whether calls of the collection take a monitor. */
    static boolean has(Object collection) { return WAYS.get(collection.getClass()) != Way.NONE; }

    static Object of(Object receiver, int code) {
        switch (WAYS.get(receiver.getClass())) {
            // Its addAll asks the other collection before it takes the monitor.
            case ITSELF: return Kind.ofQueue(code) == Kind.SEND_MANY ? null : receiver;
            case WRITES: return Kind.kind(code) == Kind.COLLECTION_WRITE ? receiver : null;
            case OF_COLLECTION: return ofCollection.get(receiver);
            case OF_MAP: return ofMap.get(receiver);
            default: return null;
        }
    }
}
