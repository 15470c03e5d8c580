import java.util.ArrayList;
import java.util.List;

// S: a thread dies of an exception, which ends its block, and its handler and another thread note errors under one lock each time
public class HandlerOfUncaught implements Thread.UncaughtExceptionHandler {
    private final List<String> errors = new ArrayList<>();
    private int parsed;

    private synchronized void note(String text) { errors.add(text); }

    @Override public void uncaughtException(Thread thread, Throwable wrong) {
        Turns.await("noted");
        note(wrong.getMessage());
    }

    synchronized void parse(String text) {
        parsed++;
        if (text.isEmpty()) throw new IllegalArgumentException("empty");
        parsed += Integer.parseInt(text);
    }

    public static void main(String[] words) {
        HandlerOfUncaught errors = new HandlerOfUncaught();
        Turns.run(() -> {
            Thread.currentThread().setUncaughtExceptionHandler(errors);
            errors.parse("12");
            try {
                errors.parse("");
            } finally {
                Turns.say("threw");
            }
        }, () -> {
            Turns.await("threw");
            errors.parse("30");
            errors.note("late");
            Turns.say("noted");
        });
        System.out.println(errors.errors + " " + errors.parsed);
    }
}
