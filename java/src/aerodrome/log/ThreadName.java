package aerodrome.log;

import java.io.FileOutputStream;
import java.io.IOException;
import java.lang.ref.WeakReference;
import java.nio.charset.StandardCharsets;
import java.util.ArrayList;
import java.util.List;

/** The name of a thread, for the file of the option `threads`: a line such as `T3 main` of each thread, written at the end. */
public final class ThreadName {
    private static final List<ThreadName> ALL = new ArrayList<>();
    private static FileOutputStream file;

    private final int number;
    private final WeakReference<Thread> thread;
    /** The last one that is known. */
    private volatile String name;

    private ThreadName(int number, Thread thread) {
        this.number = number;
        this.thread = new WeakReference<>(thread);
        name = thread.getName();
    }

    /** Says why it can't be written, or null. Without a path there is nothing to write. */
    public static String open(String path) {
        if (path == null) return null;
        try {
            file = new FileOutputStream(path);
            return null;
        } catch (IOException cannot) {
            return Sink.why(cannot);
        }
    }

    /** That of a thread, or null where nobody asks for it. */
    static ThreadName of(int number, Thread thread) {
        if (file == null) return null;
        ThreadName made = new ThreadName(number, thread);
        synchronized (ALL) {
            ALL.add(made);
        }
        return made;
    }

    /** A thread that runs may have got another name. */
    void note() {
        Thread running = thread.get();
        if (running != null) name = running.getName();
    }

    static void write() throws IOException {
        if (file == null) return;
        StringBuilder text = new StringBuilder();
        synchronized (ALL) {
            ALL.sort((one, two) -> Integer.compare(one.number, two.number));
            for (ThreadName one : ALL) {
                one.note();
                text.append('T').append(one.number).append(' ').append(one.name.replaceAll("\\p{Cntrl}", "_")).append('\n');
            }
        }
        file.write(text.toString().getBytes(StandardCharsets.UTF_8));
        file.close();
    }
}
