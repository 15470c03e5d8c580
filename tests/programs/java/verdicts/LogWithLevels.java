import java.util.ArrayList;
import java.util.List;
import java.util.concurrent.PriorityBlockingQueue;

// S: a default method appends under one lock and puts an alert into a sorted queue; two overlap, but only in that order
public class LogWithLevels {
    record Alert(int level, String text) implements Comparable<Alert> {
        @Override public int compareTo(Alert other) { return Integer.compare(other.level, level); }
    }

    interface Log {
        void append(String line);
        void alert(Alert one);

        default void info(String text) { append("info " + text); }

        default void error(int level, String text) {
            append("error " + text);
            pause(level);
            alert(new Alert(level, text));
        }

        private void pause(int level) {
            if (level != 5) return;
            Turns.say("appended");
            Turns.await("another error");
        }
    }

    static class Memory implements Log {
        private final List<String> lines = new ArrayList<>();
        private final PriorityBlockingQueue<Alert> alerts = new PriorityBlockingQueue<>();

        @Override public synchronized void append(String line) { lines.add(line); }
        @Override public void alert(Alert one) { alerts.put(one); }

        synchronized int size() { return lines.size(); }
    }

    public static void main(String[] words) {
        Memory log = new Memory();
        Turns.run(() -> log.error(5, "disk is full"), () -> {
            Turns.await("appended");
            log.error(7, "fire");
            log.info("alarm");
            Turns.say("another error");
        });
        System.out.println(log.size() + " lines, first " + log.alerts.poll().text());
    }
}
