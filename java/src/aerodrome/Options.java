package aerodrome;

import aerodrome.log.Sink;
import java.io.FileInputStream;
import java.io.IOException;
import java.nio.charset.StandardCharsets;
import java.util.ArrayList;
import java.util.Arrays;
import java.util.HashSet;
import java.util.List;
import java.util.Locale;
import java.util.Map;
import java.util.Set;

/**
 * What the agent's string says, as `log=trace.std,blocks=-main,run`. Its pieces have commas between, and one that sets no option
 * belongs to the one before. Where the string doesn't set an option the environment may: AERODROME_LOG and so on.
 */
public final class Options {
    /** What is one variable of an array. */
    public enum Grain { EACH, WHOLE, OFF }

    public static String log;
    /** Whether each test has a log of its own: the path has `%t`, which stands for the test. */
    public static boolean isOfTests;
    /** The file for the names of threads, or null. */
    public static String threads;
    /** By what number threads wait at places by chance; below 0 they don't. */
    public static long stir = -1;
    /** How many bytes are written; 0 is any number, and below 0 as many as fit where the log goes. */
    public static long limit = -1;
    public static Grain arrays = Grain.EACH;
    /** Whether final fields are logged, objects of one thread, calls of collections, and places in the source. */
    public static boolean finals, local = true, collections = true, places = true;
    private static String blocks = "-main,run,call,<init>,<clinit>";
    /** The same as the user wrote it, who may have named a file. */
    private static String blocksGiven = blocks;
    /** The name in a list that stands for all methods that have an annotation `Atomic`. */
    private static final String ANNOTATED = "annotated";
    private static String only = "", skip = "";

    private static final List<String> KNOWN = Arrays.asList(
            "log", "blocks", "only", "skip", "limit", "arrays", "finals", "local", "collections", "places", "threads", "stir");
    /** The names of `blocks` that a method had. */
    private static final Set<String> MET = new HashSet<>();

    private Options() { }

    /** Says what is wrong, or null. */
    static String read(String string, Map<String, String> environment) {
        for (String option : KNOWN) {
            String name = "AERODROME_" + option.toUpperCase(Locale.ROOT);
            String value = environment.get(name);
            String wrong = value == null || value.isEmpty() ? null : set(option, value);
            if (wrong != null) return name + "=" + value + ": " + wrong;
        }
        for (String piece : pieces(string == null ? "" : string)) {
            int at = piece.indexOf('=');
            String wrong = set(at < 0 ? piece : piece.substring(0, at), at < 0 ? "" : piece.substring(at + 1));
            if (wrong != null) return piece + ": " + wrong;
        }
        return log == null ? "log=PATH or log=|COMMAND is wanted" : null;
    }

    private static List<String> pieces(String string) {
        List<String> pieces = new ArrayList<>();
        for (String piece : string.split(",")) {
            int last = pieces.size() - 1;
            if (last < 0 || isOption(piece, pieces.get(last))) pieces.add(piece);
            else pieces.set(last, pieces.get(last) + "," + piece);
        }
        pieces.removeIf(String::isEmpty);
        return pieces;
    }
    /** What looks like an option is one, though it isn't known; but a command may have such words. */
    private static boolean isOption(String piece, String before) {
        int at = piece.indexOf('=');
        return at > 0 && (KNOWN.contains(piece.substring(0, at)) || piece.matches("[a-z]+=.*") && !before.startsWith("log=|"));
    }

    /** Says what is wanted in the value's place, or null. */
    private static String set(String option, String value) {
        switch (option) {
            case "log":
                log = withProcess(value);
                isOfTests = !value.startsWith("|") && value.contains("%t");
                return value.isEmpty() ? "a path or |COMMAND is wanted" : null;
            case "blocks": return setBlocks(value);
            case "threads":
                threads = withProcess(value);
                return value.isEmpty() ? "a path is wanted" : null;
            case "stir":
                if (!value.matches("[0-9]{1,18}")) return "a number from 0, of at most 18 digits, is wanted";
                stir = Long.parseLong(value);
                return null;
            case "only": only = value; return null;
            case "skip": skip = value; return null;
            case "limit":
                limit = bytes(value);
                return limit < 0 ? "a number of bytes, as 4096, 500K, 20M or 1G, is wanted" : null;
            case "arrays":
                if (!value.matches("each|whole|off")) return "each, whole or off is wanted";
                arrays = Grain.valueOf(value.toUpperCase(Locale.ROOT));
                return null;
            case "finals": finals = value.equals("log"); return logOrSkip(value);
            case "local": local = value.equals("log"); return logOrSkip(value);
            case "collections": collections = value.equals("log"); return logOrSkip(value);
            case "places": places = value.equals("1"); return value.matches("[01]") ? null : "0 or 1 is wanted";
            default: return "no option is called " + option;
        }
    }
    private static String withProcess(String path) { return path.replace("%p", "" + ProcessHandle.current().pid()); }
    private static String logOrSkip(String value) { return value.matches("log|skip") ? null : "log or skip is wanted"; }

    /** `@FILE` is what the file's lines say, and `-@FILE` all methods but those. */
    private static String setBlocks(String value) {
        blocksGiven = value;
        String minus = value.startsWith("-@") ? "-" : "";
        if (!value.startsWith(minus + "@")) {
            blocks = value;
            return value.isEmpty() ? "all, none or names of methods are wanted" : null;
        }
        try {
            String names = lines(value.substring(minus.length() + 1));
            blocks = minus + names;
            return names.isEmpty() ? "it has no name" : null;
        } catch (IOException cannot) {
            return Sink.why(cannot);
        }
    }
    /** The file's lines with commas between, without empty ones and comments. */
    private static String lines(String path) throws IOException {
        List<String> names = new ArrayList<>();
        try (FileInputStream file = new FileInputStream(path)) {
            for (String line : new String(file.readAllBytes(), StandardCharsets.UTF_8).split("\\R"))
                if (!line.startsWith("#") && !line.trim().isEmpty()) names.add(line.trim());
        }
        return String.join(",", names);
    }

    /** A number of bytes, which may have a unit; below 0 where it is none. */
    private static long bytes(String value) {
        if (!value.matches("[0-9]{1,18}[KMG]?")) return -1;
        int unit = " KMG".indexOf(value.charAt(value.length() - 1));
        long number = Long.parseLong(unit < 0 ? value : value.substring(0, value.length() - 1));
        long factor = unit < 0 ? 1 : 1L << 10 * unit;
        return number > Long.MAX_VALUE / factor ? -1 : number * factor;
    }

    /** What isn't the program's. A loader that asks nobody but for java.* makes copies of the agent's own classes, too. */
    private static final String[] OTHERS = {
        "java/", "javax/", "jdk/", "sun/", "org/jacoco/", "aerodrome/Agent", "aerodrome/Options", "aerodrome/hooks/",
        "aerodrome/junit/", "aerodrome/log/", "aerodrome/names/", "aerodrome/weave/", "aerodrome/asm/"};
    /** What runs tests, some of it between a test's begin and its method. */
    private static final String[] RUNNERS = {"org/junit/", "org/opentest4j/", "org/apache/maven/surefire/", "org/gradle/"};

    /** Whether the class, as a/b/C, is one of the program's that are logged. */
    public static boolean covers(String name) {
        for (String one : OTHERS) if (name.startsWith(one)) return false;
        for (String one : RUNNERS) if (isOfTests && name.startsWith(one)) return false;
        return (only.isEmpty() || hasPrefix(only, name)) && !hasPrefix(skip, name);
    }
    private static boolean hasPrefix(String prefixes, String name) {
        for (String one : prefixes.split(",")) if (!one.isEmpty() && name.startsWith(one.replace('.', '/'))) return true;
        return false;
    }

    /** Why no class of the program is logged. */
    public static String whyNoClass() {
        if (only.isEmpty() && skip.isEmpty()) return "no class of the program was loaded";
        String both = (only.isEmpty() ? "" : "only=" + only) + (only.isEmpty() || skip.isEmpty() ? "" : ",")
                + (skip.isEmpty() ? "" : "skip=" + skip);
        return both + ": this leaves out every class that was loaded";
    }

    /** Whether there may be blocks. */
    public static boolean hasBlocks() { return !blocks.equals("none"); }

    /** Whether the method, as a.b.C.m, is a block. One that isn't meant to be one (the compiler made it) is none unless it is asked for. */
    public static boolean isBlock(String label, boolean isMeant, boolean isAnnotated) {
        if (blocks.equals("all")) return true;
        if (blocks.equals("none")) return false;
        if (!blocks.startsWith("-")) return isListed(blocks, label, isAnnotated);
        return !isListed(blocks.substring(1), label, isAnnotated) && isMeant;
    }
    /** A name is a method's, or a label, or the begin of labels with a `*` behind it, or the word for annotated methods. */
    private static boolean isListed(String names, String label, boolean isAnnotated) {
        String method = label.substring(label.lastIndexOf('.') + 1);
        boolean any = false;
        for (String one : names.split(",")) {
            boolean starts = one.endsWith("*") && label.startsWith(one.substring(0, one.length() - 1));
            boolean isCalled = one.equals(ANNOTATED) ? isAnnotated : one.equals(label) || one.equals(method);
            if (!starts && !isCalled) continue;
            any = true;
            synchronized (MET) {
                MET.add(one);
            }
        }
        return any;
    }
    /** What is to be said at the end of names of blocks that no method had, as they may be wrong. */
    public static List<String> blocksNotMet() {
        List<String> left = new ArrayList<>();
        if (blocks.startsWith("-") || blocks.equals("all") || blocks.equals("none")) return left;
        synchronized (MET) {
            for (String one : blocks.split(",")) {
                if (MET.contains(one)) continue;
                String what = one.equals(ANNOTATED) ? "no method or class has an annotation @Atomic" : "no method is called " + one;
                left.add("blocks=" + blocksGiven + ": " + what);
            }
        }
        return left;
    }
}
