package aerodrome.junit;

import java.io.IOException;
import java.io.InputStream;
import java.nio.charset.StandardCharsets;
import java.nio.file.Files;
import java.nio.file.Paths;
import java.util.List;
import java.util.regex.Matcher;
import java.util.regex.Pattern;
import java.util.stream.Collectors;
import java.util.stream.Stream;

/** What the checker's report says of the log of a test. */
final class Verdict {
    private static final Pattern VIOLATION = Pattern.compile("violation at line (\\d+): block of (\\S+) from line (\\d+)");
    private static final Pattern SERIALIZABLE = Pattern.compile("serializable \\(\\d+ events, (\\d+) blocks\\)");
    private static final Pattern OPEN = Pattern.compile("no violation, (\\d+) blocks open \\(.*\\)");
    private static final String NOTHING =
            "no block to check: it called no method that is a block by the options blocks=, only= and skip=";

    /** Whether the log has a violation, and whether it has no block, so that nothing was checked. */
    final boolean isViolation, isOfNothing;
    /** The message, which is empty if there is nothing to report. */
    final String text;

    private Verdict(boolean isViolation, boolean isOfNothing, String text) {
        this.isViolation = isViolation;
        this.isOfNothing = isOfNothing;
        this.text = text;
    }

    /** Judges the log, without the blocks of this label. An exception says why it isn't judged. */
    static Verdict of(String program, String log, String except) throws IOException {
        List<String> report = report(program, log, except);
        String first = report.get(0), said = first.startsWith(log + ": ") ? first.substring(log.length() + 2) : first;
        Matcher violation = VIOLATION.matcher(said), serializable = SERIALIZABLE.matcher(said), open = OPEN.matcher(said);
        if (violation.matches()) return new Verdict(true, false, blame(log, report, violation));
        if (open.matches()) return new Verdict(false, false, "no violation, but blocks are open at the log's end: " + open.group(1));
        if (!serializable.matches()) throw new IOException(said);
        boolean isOfNothing = serializable.group(1).equals("0");
        return new Verdict(false, isOfNothing, isOfNothing ? NOTHING : "");
    }

    // ---- the report

    /** Its lines on the log: all but the last one, which counts. */
    private static List<String> report(String program, String log, String except) throws IOException {
        Process checker;
        try {
            checker = new ProcessBuilder(program, "--explain", "--long", "--except", except, "--", log).start();
        } catch (IOException cannot) {
            throw new IOException("no checker " + program + ": put it on the path, or set aerodrome.program to its path");
        }
        checker.getOutputStream().close();
        List<String> lines = lines(checker.getInputStream());
        if (lines.size() < 2) {
            List<String> wrong = lines(checker.getErrorStream());
            throw new IOException(wrong.isEmpty() ? program + " gave no report" : String.join("\n", wrong));
        }
        return lines.subList(0, lines.size() - 1);
    }
    private static List<String> lines(InputStream from) throws IOException {
        return new String(from.readAllBytes(), StandardCharsets.UTF_8).lines().collect(Collectors.toList());
    }

    /** Names the block and the two places, and then has the report. */
    private static String blame(String log, List<String> report, Matcher violation) throws IOException {
        String[] begin = event(log, Long.parseLong(violation.group(3))), close = event(log, Long.parseLong(violation.group(1)));
        String label = begin[1].replaceFirst("begin\\((.*)\\)", "$1");
        String told = "not atomic: " + label + " (" + begin[2] + "), closed by " + close[0] + " at " + close[2];
        return told + "\n" + String.join("\n", report);
    }
    /** The thread, the operation, and the place in the source, or in the log where the event has none. */
    private static String[] event(String log, long line) throws IOException {
        try (Stream<String> lines = Files.lines(Paths.get(log))) {
            String[] parts = lines.skip(line - 1).findFirst().orElse("").split("\\|", 3);
            if (parts.length < 2) throw new IOException("it has changed meanwhile");
            return parts.length == 3 ? parts : new String[] {parts[0], parts[1], "line " + line + " of the log"};
        }
    }
}
