package aerodrome.hooks;

import java.lang.invoke.VarHandle;
import java.security.AccessController;
import java.security.PrivilegedAction;
import java.util.Collection;
import java.util.Map;

/** The collections of iterators that remove from them. An iterator of java.util has its collection for a hidden field. */
final class Iterators {
    private Iterators() { }

    /** Of a class of iterators: the field of the collection, or null. */
    private static final class Outer {
        final VarHandle field;

        Outer(VarHandle field) { this.field = field; }
    }
    private static final ClassValue<Outer> OUTER = new ClassValue<Outer>() {
        // (a program with a SecurityManager may not look for fields)
        @SuppressWarnings("removal")
        @Override protected Outer computeValue(Class<?> of) {
            return new Outer(AccessController.doPrivileged((PrivilegedAction<VarHandle>) () -> Views.field(of, "this$0")));
        }
    };

    /** Returns the collection of the iterator, or null. A set that is made of a map iterates over that. */
    static Object collection(Object iterator) {
        VarHandle field = OUTER.get(iterator.getClass()).field;
        Object of = field == null ? null : Views.owner(Views.origin(field.get(iterator)));
        return of instanceof Collection || of instanceof Map ? of : null;
    }
}
