package aerodrome.log;

import java.io.File;
import java.io.FileOutputStream;
import java.io.IOException;
import java.io.OutputStream;
import java.io.RandomAccessFile;
import java.nio.channels.OverlappingFileLockException;
import java.nio.charset.StandardCharsets;
import java.nio.file.Files;
import java.nio.file.Path;
import java.nio.file.attribute.BasicFileAttributes;
import java.util.regex.Matcher;
import java.util.regex.Pattern;

/**
 * Where the log goes: a file, or the standard input of a command. A file is locked as long as the log is written, so that two
 * processes that have one path don't write over each other.
 *
 * Behind its lines a file has a mark, a line that begins a block which never ends. While the program runs the mark says cut:killed; the
 * regular end takes it off, and a log that ends early has the reason there. Until lines are written a text that is no trace is in its
 * place. So nobody takes the log of a program that was killed for a whole one.
 */
public final class Sink {
    /** How an exception of a file that can't be opened says why. */
    private static final Pattern REASON = Pattern.compile(".* \\((.*)\\)");
    private static final long MOST_OF_A_FILE = 1L << 30;
    /** The byte that is locked: far behind all that is written, for some systems keep others from reading what is locked. */
    private static final long LOCKED = Long.MAX_VALUE - 1;
    private static final byte[] NO_LINES =
            "aerodrome-log: the program has ended before it wrote its first lines".getBytes(StandardCharsets.US_ASCII);
    private static final byte[] KILLED = mark("killed");
    /** Bytes that the longest mark has. */
    static final int MOST_MARK = mark("threads").length;

    final String target;
    /** Of a command, or of what is no plain file; else null. */
    private final OutputStream out;
    /** The plain file, whose writes say at which byte, so that a mark can be written over; else null. */
    private final RandomAccessFile file;
    private final Process command;
    /** That of the file when it was opened, if it is a plain one that has such a thing. */
    private Object identity;
    /** How many bytes of whole lines the file has, and of the mark behind them. */
    private long whole;
    private int marked;

    private Sink(String target, OutputStream out, RandomAccessFile file, Process command) {
        this.target = target;
        this.out = out;
        this.file = file;
        this.command = command;
    }

    private static byte[] mark(String cause) {
        return ("aerodrome|begin(cut:" + cause + ")|0\n").getBytes(StandardCharsets.US_ASCII);
    }

    /** The target is a path, or a command behind a bar. */
    public static Sink open(String target) throws IOException {
        if (!target.startsWith("|")) return openFile(target);
        ProcessBuilder builder = new ProcessBuilder("/bin/sh", "-c", target.substring(1));
        builder.environment().keySet().removeIf(name -> name.equals("JAVA_TOOL_OPTIONS") || name.equals("AERODROME_LOG"));
        builder.redirectOutput(ProcessBuilder.Redirect.INHERIT).redirectError(ProcessBuilder.Redirect.INHERIT);
        Process command = builder.start();
        return new Sink(target, command.getOutputStream(), null, command);
    }

    /** With -Duser.dir=DIR the classes of java.io and java.nio don't agree on what a relative path means. */
    private static File absolute(String target) { return new File(target).getAbsoluteFile(); }

    /** A file that another process writes its log to stays as it is. So it is emptied only once it is locked. */
    private static Sink openFile(String target) throws IOException {
        File at = absolute(target);
        Path path = at.toPath();
        if (Files.exists(path) && !Files.isRegularFile(path))
            return new Sink(target, new FileOutputStream(at, true), null, null);
        Sink made = new Sink(target, null, new RandomAccessFile(at, "rw"), null);
        if (!made.isLocked()) {
            made.file.close();
            throw new IOException("another process writes its log there, so use %p in the path");
        }
        made.identity = identity(path);
        made.file.setLength(0);
        made.markFirst();
        return made;
    }
    /** A file system that knows no locks doesn't keep the log from being written. */
    private boolean isLocked() {
        try {
            return file.getChannel().tryLock(LOCKED, 1, false) != null;
        } catch (OverlappingFileLockException here) {
            return false;
        } catch (IOException unknown) {
            return true;
        }
    }
    private static Object identity(Path path) throws IOException {
        return Files.readAttributes(path, BasicFileAttributes.class).fileKey();
    }

    private void markFirst() {
        try {
            put(0, NO_LINES, 0, NO_LINES.length);
            marked = NO_LINES.length;
        } catch (IOException full) {
            // The first lines will show it.
        }
    }

    /** Leaves no log, since it has no line: no file, if the path leads to the one that was opened still, and for a command the text. */
    void drop() throws IOException {
        if (command != null) {
            write(NO_LINES, NO_LINES.length);
            close();
            return;
        }
        delete();
        close();
    }
    private void delete() throws IOException {
        Path path = absolute(target).toPath();
        boolean isOurs = identity != null && Files.exists(path) && identity.equals(identity(path)) && !Files.isSymbolicLink(path);
        if (isOurs) Files.delete(path);
    }

    /** How many bytes are written where nobody says how many; 0 is any number. */
    long limit() { return file != null ? MOST_OF_A_FILE : 0; }

    /** Writes the lines. Behind them the array has room for a mark. */
    void write(byte[] lines, int count) throws IOException {
        if (count == 0) return;
        if (file != null) {
            writeWithMark(lines, count);
            return;
        }
        try {
            out.write(lines, 0, count);
            out.flush();
        } catch (IOException wrong) {
            throw command == null ? wrong : new IOException("its reader has ended");
        }
    }

    // ---- a plain file. Its calls aren't those of a channel, which a thread that is interrupted would close.

    private void put(long at, byte[] bytes, int from, int count) throws IOException {
        file.seek(at);
        file.write(bytes, from, count);
    }

    /** The mark that the file has is written over last: wherever the process is killed, that or the new one is there. */
    private void writeWithMark(byte[] lines, int count) throws IOException {
        System.arraycopy(KILLED, 0, lines, count, KILLED.length);
        int all = count + KILLED.length, first = Math.min(marked, all);
        put(whole + first, lines, first, all - first);
        put(whole, lines, 0, first);
        if (marked > all) file.setLength(whole + all);
        whole += count;
        marked = KILLED.length;
    }

    /** The log ends early; the write of these lines may have failed. */
    void cut(String cause, byte[] lines, int count) {
        byte[] mark = mark(cause);
        try {
            if (file != null) cutFile(mark, lines, count);
            else if (count == 0) write(mark, mark.length);
        } catch (IOException cannot) {
            // What was written stays.
        }
    }
    /** The file keeps the lines that fit with the mark behind them, which takes no more room than the file has. */
    private void cutFile(byte[] mark, byte[] lines, int count) throws IOException {
        int fit = (int) Math.max(0, Math.min(count, file.length() - whole - mark.length));
        while (fit > 0 && lines[fit - 1] != '\n') fit--;
        if (whole + fit == 0) {
            delete();
            return;
        }
        put(whole + fit, mark, 0, mark.length);
        put(whole, lines, 0, Math.min(fit, marked));
        whole += fit;
        marked = mark.length;
        file.setLength(whole + marked);
    }

    /** The log is whole. */
    void unmark() throws IOException {
        if (file != null) file.setLength(whole);
        marked = 0;
    }

    /** Closes it, and waits for the command's end. */
    void close() throws IOException {
        try {
            if (file != null) file.close();
            else out.close();
        } catch (IOException wrong) {
            if (command == null) throw wrong;
        }
        while (command != null) {
            try {
                command.waitFor();
                return;
            } catch (InterruptedException again) {
                // The command's report is worth waiting for.
            }
        }
    }

    /** What the exception says, without the file's name. */
    public static String why(IOException wrong) {
        String message = String.valueOf(wrong.getMessage());
        Matcher reason = REASON.matcher(message);
        return reason.matches() ? reason.group(1) : message;
    }
}
