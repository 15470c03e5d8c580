package aerodrome.hooks;

import aerodrome.names.Fields;
import aerodrome.names.Numbered;
import java.util.Map;
import java.util.concurrent.ConcurrentHashMap;

/** Methods of the program that override methods of the JDK, as those of a class that extends HashMap may do. */
final class Methods {
    /** A class that isn't instrumented has none. */
    private static final Map<String, Boolean> NONE = Map.of();
    /** Of a class: whether the program has the method, by the method's key. */
    private static final ClassValue<Map<String, Boolean>> OWN = new ClassValue<Map<String, Boolean>>() {
        @Override protected Map<String, Boolean> computeValue(Class<?> of) {
            return Numbered.class.isAssignableFrom(of) ? new ConcurrentHashMap<>() : NONE;
        }
    };

    private Methods() { }

    /**
     * Returns whether a call of this method of an object of the class runs a method of an instrumented class.
     *
     * @param method its name and descriptor. Of a call of a method of the class above, the name of that class stands before it, as a/b/C.
     */
    static boolean isOwn(Class<?> of, String method) {
        Map<String, Boolean> known = OWN.get(of);
        if (known == NONE) return false;
        Boolean isOwn = known.get(method);
        if (isOwn == null) known.put(method, isOwn = find(of, method));
        return isOwn;
    }

    /** A call of a method of the class above begins its search there. */
    private static boolean find(Class<?> of, String method) {
        int end = method.substring(0, method.indexOf('(')).lastIndexOf('.');
        String from = end < 0 ? of.getName() : method.substring(0, end).replace('/', '.');
        boolean isFrom = false;
        for (Class<?> one = of; one != null; one = one.getSuperclass()) {
            isFrom |= one.getName().equals(from);
            if (isFrom && Fields.hasMethod(one, method.substring(end + 1))) return true;
        }
        return false;
    }
}
