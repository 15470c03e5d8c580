package aerodrome.weave;

import static org.objectweb.asm.Opcodes.INVOKEINTERFACE;
import static org.objectweb.asm.Opcodes.INVOKESPECIAL;
import static org.objectweb.asm.Opcodes.INVOKESTATIC;
import static org.objectweb.asm.Opcodes.INVOKEVIRTUAL;

import aerodrome.Options;
import aerodrome.hooks.Kind;
import java.io.BufferedReader;
import java.io.IOException;
import java.io.InputStream;
import java.io.InputStreamReader;
import java.nio.charset.StandardCharsets;
import java.util.ArrayList;
import java.util.Arrays;
import java.util.HashMap;
import java.util.HashSet;
import java.util.List;
import java.util.Locale;
import java.util.Map;
import java.util.Set;

/** What becomes what, as the file `table` has it. */
public final class Table {
    private static final String ANY = "*";
    /** The package of the classes that a program may extend. */
    private static final String EXTENDED = "java/util/";
    /** The only class whose static methods are logged. */
    private static final String STATIC_OWNER = "java/util/concurrent/locks/LockSupport";

    /** Methods of one kind. */
    private static final class Row {
        final String[] methods;
        final Kind kind;
        final int code;

        Row(String kinds, String[] methods) {
            String[] words = kinds.toUpperCase(Locale.ROOT).replace('-', '_').split("/");
            this.methods = methods;
            Kind[] all = new Kind[words.length];
            for (int one = 0; one < all.length; one++) all[one] = Kind.valueOf(words[one]);
            kind = all[0];
            code = Kind.code(all);
        }

        boolean fits(String name, String descriptor) {
            for (String one : methods) {
                boolean fits = one.endsWith("*") ? name.startsWith(one.substring(0, one.length() - 1))
                        : one.endsWith("()") ? descriptor.startsWith("()") && one.equals(name + "()")
                        : one.equals(name) || one.indexOf('(') > 0 && one.equals(name + descriptor);
                if (fits) return true;
            }
            return false;
        }
    }

    /** By the name of a class, as a/b/C. */
    private final Map<String, List<Row>> rows;
    /** The names of the methods that a class of the program may have from one of the JDK's, and what such names begin with. */
    private final Set<String> names = new HashSet<>(), beginnings = new HashSet<>();
    /** The methods of the JDK that call a hook. */
    final List<JdkHook> hooks;

    private Table(Map<String, List<Row>> rows, List<JdkHook> hooks) {
        this.rows = rows;
        this.hooks = hooks;
        rows.forEach((owner, all) -> all.forEach(row -> noteNames(owner, row)));
    }

    private void noteNames(String owner, Row row) {
        if (owner.startsWith(EXTENDED)) for (String one : row.methods) noteName(one);
    }
    private void noteName(String method) {
        if (method.endsWith("*")) beginnings.add(method.substring(0, method.length() - 1));
        else names.add(method.indexOf('(') < 0 ? method : method.substring(0, method.indexOf('(')));
    }

    public static Table read() throws IOException {
        Reader reader = new Reader();
        InputStream file = Table.class.getResourceAsStream("/aerodrome/table");
        try (BufferedReader lines = new BufferedReader(new InputStreamReader(file, StandardCharsets.UTF_8))) {
            for (String line; (line = lines.readLine()) != null; )
                if (!line.isEmpty() && !line.startsWith("#")) reader.take(line.trim().split(" +"));
        }
        return new Table(reader.rows, reader.hooks);
    }

    /** Reads the file, and keeps what the lines so far say of the next row. */
    private static final class Reader {
        final Map<String, List<Row>> rows = new HashMap<>();
        final List<JdkHook> hooks = new ArrayList<>();
        private String prefix = "";
        private List<String> classes = new ArrayList<>();
        private boolean hasRow;

        void take(String[] words) {
            switch (words[0]) {
                case "hook": case "else": case "also": hooks.add(new JdkHook(words)); return;
                case "in": prefix = words[1].equals(ANY) ? "" : words[1].replace('.', '/') + "/"; return;
                case "of":
                    if (hasRow) classes = new ArrayList<>();
                    hasRow = false;
                    for (int one = 1; one < words.length; one++) classes.add(prefix + words[one].replace('.', '/'));
                    return;
                default:
                    hasRow = true;
                    add(new Row(words[0], Arrays.copyOfRange(words, 1, words.length)));
            }
        }
        private void add(Row row) {
            for (String one : classes) rows.computeIfAbsent(one, unused -> new ArrayList<>()).add(row);
        }
    }

    // ---- looking up

    private Row row(String owner, String name, String descriptor) {
        for (Row row : rows.getOrDefault(owner, List.of())) if (row.fits(name, descriptor)) return row;
        return null;
    }

    /** How a call by code of the loader's classes is logged, as Kind.code has it; 0 if it isn't. */
    int code(ClassLoader by, int opcode, String owner, String name, String descriptor) {
        if (opcode == INVOKESTATIC && !owner.equals(STATIC_OWNER)) return 0;
        Row row = opcode == INVOKESPECIAL ? null : row(owner, name, descriptor);
        if (row == null && (opcode == INVOKEVIRTUAL || opcode == INVOKESPECIAL)) row = inherited(by, opcode, owner, name, descriptor);
        if (row == null && opcode == INVOKEINTERFACE) row = ofInterfaces(by, owner, name, descriptor);
        return row == null || row.kind.isContents() && !Options.collections ? 0 : row.code;
    }

    /** The row of a method that the class may have from one of the JDK: the method's name says so, or what the class extends. */
    private Row inherited(ClassLoader by, int opcode, String owner, String name, String descriptor) {
        Row row = row(ANY, name, descriptor);
        if (row != null || !mayBeNamed(name)) return row;
        String base = Options.covers(owner) ? Bases.base(by, owner) : opcode == INVOKESPECIAL ? owner : null;
        // A class between the two that isn't instrumented has no rows.
        while (base != null && !base.startsWith("java/")) base = Bases.base(by, base);
        return base == null ? null : row(base, name, descriptor);
    }
    /** Returns the row of a method that an interface of the program has from one of the JDK, or null. */
    private Row ofInterfaces(ClassLoader by, String owner, String name, String descriptor) {
        if (!Options.covers(owner) || !mayBeNamed(name)) return null;
        for (String one : Bases.interfaces(by, owner)) {
            Row row = row(one, name, descriptor);
            if (row != null) return row;
        }
        return null;
    }
    /** Returns whether some row has methods of this name, so that the files of classes are read for no others. */
    private boolean mayBeNamed(String name) {
        for (String one : beginnings) if (name.startsWith(one)) return true;
        return names.contains(name);
    }
}
