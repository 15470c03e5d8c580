package aerodrome.weave;

import aerodrome.Options;
import aerodrome.names.Fields;
import java.util.ArrayDeque;
import java.util.Deque;
import java.util.HashMap;
import java.util.LinkedHashSet;
import java.util.List;
import java.util.Map;
import java.util.Set;
import java.util.WeakHashMap;

/** The classes and interfaces of the JDK, or others that aren't instrumented, that those of the program extend. Names are a/b/C. */
final class Bases {
    /** By the loader that asks: the class above each class that it hadn't loaded, and then the interfaces. */
    private static final Map<ClassLoader, Map<String, List<String>>> READ = new WeakHashMap<>();

    private Bases() { }

    /** Returns the first class above the class that isn't instrumented, or null if that isn't known. */
    static String base(ClassLoader by, String of) {
        String name = of;
        do {
            List<String> above = above(by, name);
            name = above.isEmpty() ? null : above.get(0);
        } while (name != null && Options.covers(name));
        return name;
    }

    /** Returns all that an interface extends and that isn't instrumented. */
    static Set<String> interfaces(ClassLoader by, String of) {
        Set<String> found = new LinkedHashSet<>();
        Deque<String> left = new ArrayDeque<>(above(by, of));
        for (String one; (one = left.poll()) != null; )
            if (!Options.covers(one)) found.add(one);
            else left.addAll(above(by, one));
        return found;
    }

    private static List<String> above(ClassLoader by, String of) {
        List<String> known = Fields.above(by, of);
        if (known.isEmpty()) known = noted(by, of);
        if (known == null) note(by, of, known = ClassFile.above(by, of));
        return known;
    }
    private static List<String> noted(ClassLoader by, String of) {
        synchronized (READ) {
            return READ.getOrDefault(by, Map.of()).get(of);
        }
    }
    private static void note(ClassLoader by, String of, List<String> above) {
        synchronized (READ) {
            READ.computeIfAbsent(by, one -> new HashMap<>()).put(of, above);
        }
    }
}
