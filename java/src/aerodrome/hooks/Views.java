package aerodrome.hooks;

import aerodrome.names.Numbered;
import aerodrome.names.Numbers;
import java.lang.invoke.MethodHandles;
import java.lang.invoke.VarHandle;
import java.lang.ref.WeakReference;
import java.lang.reflect.Field;
import java.security.AccessController;
import java.security.PrivilegedAction;
import java.util.Collection;
import java.util.HashSet;
import java.util.Iterator;
import java.util.LinkedHashMap;
import java.util.Map;
import java.util.Properties;
import java.util.TreeSet;
import java.util.concurrent.ConcurrentSkipListSet;

/**
 * Views and wrappers of collections and maps: a map's keys, a sublist, a submap, and what Collections.unmodifiableList and
 * Collections.newSetFromMap make. Their calls are logged as those of the collection or map behind them.
 *
 * A few classes are made of a map, and their views and iterators are views and iterators of that map. A call that gives one ties the
 * map to its owner.
 */
public final class Views {
    /** The names of the fields in which such classes of java.util hold the collection or map behind them. */
    private static final String[] FIELDS = {"this$0", "this$1", "root", "c", "m", "map", "q", "s", "entrySet", "base", "list"};
    /** Such classes are within others, except those of JDK 21 that turn the order round. */
    private static final String NAMES = "java\\.util\\.(.*\\$.*|ReverseOrder\\w+View)";
    /** Those whose calls take values or entries. */
    private static final String WITHOUT_KEYS = "java\\.util\\..*\\$(1Seq)?(Values|EntrySet)(View)?";

    /** Those whose calls change nothing. */
    private static final String UNMODIFIABLE = "java\\.util\\.(Collections\\$(Unmodifiable|Empty|Singleton|Copies).*|ImmutableCollections\\$.*)";

    /** In each of these classes, the field of the map that it is made of. */
    private static VarHandle ofHashSet, ofTreeSet, ofSkipListSet, ofProperties;
    private static VarHandle inOrderOfAccess;

    private Views() { }

    /** Needs java.util and java.util.concurrent to be open to this module. */
    public static void start() throws ReflectiveOperationException {
        ofHashSet = handle(HashSet.class, "map");
        ofTreeSet = handle(TreeSet.class, "m");
        ofSkipListSet = handle(ConcurrentSkipListSet.class, "m");
        ofProperties = handle(Properties.class, "map");
        inOrderOfAccess = handle(LinkedHashMap.class, "accessOrder");
    }
    private static VarHandle handle(Class<?> of, String name) throws ReflectiveOperationException {
        Field field = of.getDeclaredField(name);
        return MethodHandles.privateLookupIn(of, MethodHandles.lookup()).unreflectVarHandle(field);
    }

    /** Of a class: the field that holds the collection behind it, or null; and whether its calls take keys, not values or entries. */
    private static final class Behind {
        final VarHandle field;
        final boolean isOfKeys;
        /** Whether calls of its methods stand for its contents, since no event of its own code does. */
        final boolean isOpaque;
        /** Whether only some objects of the class are views: those that are made of a view of a map. */
        final boolean isSorted;
        final boolean isUnmodifiable;

        Behind(Class<?> of, VarHandle field) {
            isSorted = of == TreeSet.class || of == ConcurrentSkipListSet.class;
            this.field = !isSorted ? field : of == TreeSet.class ? ofTreeSet : ofSkipListSet;
            isOfKeys = !of.getName().matches(WITHOUT_KEYS);
            isUnmodifiable = of.getName().matches(UNMODIFIABLE);
            isOpaque = !Numbered.class.isAssignableFrom(of) || extendsWhole(of);
        }
        /** Returns whether the first class of java.util that the class extends has contents of its own. */
        private static boolean extendsWhole(Class<?> of) {
            for (Class<?> one = of; one != null; one = one.getSuperclass())
                if (one.getName().startsWith("java.util.")) return !one.getSimpleName().startsWith("Abstract");
            return false;
        }

        Object of(Object view) {
            if (field == null) return null;
            Object next = field.get(view);
            return isSorted && next.getClass().getName().indexOf('$') < 0 ? null : next;
        }
    }
    private static final ClassValue<Behind> BEHIND = new ClassValue<Behind>() {
        // (a program with a SecurityManager may not look for fields)
        @SuppressWarnings("removal")
        @Override protected Behind computeValue(Class<?> of) {
            return new Behind(of, AccessController.doPrivileged((PrivilegedAction<VarHandle>) () -> field(of, FIELDS)));
        }
    };

    /** Returns the first of these fields that the class has from a class of views or iterators, or null. */
    static VarHandle field(Class<?> of, String... names) {
        for (Class<?> one = of; one != null && one.getName().matches(NAMES); one = one.getSuperclass())
            for (String name : names)
                try {
                    Class<?> type = one.getDeclaredField(name).getType();
                    if (Collection.class.isAssignableFrom(type) || Map.class.isAssignableFrom(type)) return handle(one, name);
                } catch (ReflectiveOperationException | RuntimeException none) {
                    // Another name, or the class above, may have it.
                }
        return null;
    }

    /** Returns the collection or map whose contents these are: the receiver itself, if it is no view. */
    static Object origin(Object receiver) {
        Object origin = receiver;
        for (Object next; (next = BEHIND.get(origin.getClass()).of(origin)) != null; ) origin = next;
        return origin == receiver ? receiver : owner(origin);
    }

    /** Returns whether it is a map that a look at a key changes, as the caches are that remove the key that wasn't used for longest. */
    static boolean isInOrderOfAccess(Object map) { return map instanceof LinkedHashMap && (boolean) inOrderOfAccess.get(map); }

    /** Returns whether calls of the view or the iterator, or of a view behind it, change nothing. */
    static boolean isUnmodifiable(Object receiver) {
        for (Object one = receiver; one != null; ) {
            Behind behind = BEHIND.get(one.getClass());
            if (behind.isUnmodifiable) return true;
            one = behind.of(one);
        }
        return false;
    }

    static boolean isOpaque(Object collection) { return BEHIND.get(collection.getClass()).isOpaque; }
    /** Returns whether a call of the collection, or of the view of it that the receiver is, stands for what it does to the contents. */
    static boolean mayAccess(Object receiver, Object collection, boolean isChange) {
        Behind behind = BEHIND.get(collection.getClass());
        if (!isChange || !behind.isOpaque) return behind.isOpaque;
        return !behind.isUnmodifiable && (receiver == collection || !isUnmodifiable(receiver));
    }

    /** Returns the set or the properties that are made of this map, if they are tied to it; otherwise the map itself. */
    static Object owner(Object map) {
        Object tied = map instanceof Map ? Numbers.tied(map) : null;
        Object owner = tied instanceof WeakReference ? ((WeakReference<?>) tied).get() : null;
        return owner == null ? map : owner;
    }

    /** Ties the map of which the collection is made to the collection, if a call of that has given a view or an iterator. */
    static void gave(Object collection, Object result) {
        VarHandle field = collection instanceof HashSet ? ofHashSet : collection instanceof TreeSet ? ofTreeSet
                : collection instanceof ConcurrentSkipListSet ? ofSkipListSet : collection instanceof Properties ? ofProperties : null;
        if (field == null || !(result instanceof Iterator || result instanceof Collection)) return;
        Object map = field.get(collection);
        if (map != null && Numbers.tied(map) == null) Numbers.tie(map, new WeakReference<>(collection));
    }

    /** Returns the kind of a call of the queue behind the receiver, which may put and take at the other end than usual. */
    static Kind ofQueue(Kind kind, Object receiver) {
        Kind turned = kind;
        for (Object one = receiver; one != null; one = BEHIND.get(one.getClass()).of(one)) {
            boolean isStack = one.getClass().getName().equals(STACK);
            if (isStack && turned == Kind.SEND || one.getClass().getName().equals(TURNED)) turned = turned.turned();
        }
        return turned;
    }
    private static final String STACK = "java.util.Collections$AsLIFOQueue", TURNED = "java.util.ReverseOrderDequeView";

    /** Returns whether arguments of its calls are keys of a map, and not values or entries. */
    static boolean isOfKeys(Object receiver) {
        for (Object one = receiver; one != null; ) {
            Behind behind = BEHIND.get(one.getClass());
            if (!behind.isOfKeys) return false;
            one = behind.of(one);
        }
        return true;
    }
}
