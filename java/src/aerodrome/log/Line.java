package aerodrome.log;

import java.nio.charset.StandardCharsets;

/** The line that a thread is about to log. It begins with the thread's name. */
public final class Line {
    /** More than a line ever has: its names are cut to less. */
    private static final int MOST = 2048;

    final byte[] bytes = new byte[MOST];
    int length;
    /** Whether it stands in the log since it was begun. */
    public boolean isWritten;
    /** The test, by its number, in whose log it is written; see Log.test. */
    int test;
    private final int prefix;

    Line(int thread, int test) {
        this(thread);
        this.test = test;
    }
    Line(int thread) {
        byte[] text = ("T" + thread + "|").getBytes(StandardCharsets.US_ASCII);
        System.arraycopy(text, 0, bytes, 0, text.length);
        prefix = text.length;
    }

    /** Begins a new line. */
    public Line begin() {
        length = prefix;
        isWritten = false;
        return this;
    }

    public Line put(byte[] text) {
        System.arraycopy(text, 0, bytes, length, text.length);
        length += text.length;
        return this;
    }

    public Line put(char one) {
        bytes[length++] = (byte) one;
        return this;
    }

    /** A number from 0. */
    public Line put(long number) {
        int end = length + 1;
        for (long left = number; left >= 10; left /= 10) end++;
        length = end;
        do {
            bytes[--end] = (byte) ('0' + number % 10);
            number /= 10;
        } while (number > 0);
        return this;
    }

    /** Makes the operation, which is one letter, another. */
    public void setOperation(char operation) { bytes[prefix] = (byte) operation; }
}
