import java.util.List;
import java.util.Timer;
import java.util.TimerTask;
import java.util.concurrent.CopyOnWriteArrayList;

// S: a timer adds a row while a table is shown, but the loop shows the rows that the list had when it began
public class RowsWhileTimed {
    private static final List<String> rows = new CopyOnWriteArrayList<>();

    static void addRow(String row) { rows.add(row); }

    static String show() {
        StringBuilder text = new StringBuilder();
        for (String row : rows) {
            if (text.length() == 0) {
                Turns.say("first row is shown");
                Turns.await("timed row is added");
            }
            text.append(row).append('\n');
        }
        return text.toString();
    }

    public static void main(String[] words) {
        addRow("one");
        addRow("two");
        Timer timer = new Timer("rows", true);
        timer.schedule(new TimerTask() {
            @Override public void run() {
                Turns.await("first row is shown");
                addRow("three");
                Turns.say("timed row is added");
            }
        }, 1);
        System.out.print(show());
        timer.cancel();
        System.out.print(show());
    }
}
