import java.util.Timer;
import java.util.TimerTask;

// V: a task of a Timer changes a number between a method's look and its change
public class ByATimer {
    static int number;
    static synchronized int look() { return number; }
    static synchronized void change(int to) { number = to; }

    static void addOne() {
        int seen = look();
        Turns.say("looked");
        Turns.await("changed");
        change(seen + 1);
    }
    public static void main(String[] words) {
        Timer timer = new Timer(true);
        timer.schedule(new TimerTask() {
            @Override public void run() {
                Turns.await("looked");
                change(7);
                Turns.say("changed");
            }
        }, 0);
        addOne();
        timer.cancel();
    }
}
