package aerodrome.log;

import java.util.Map;
import java.util.TreeMap;

/** What may happen to many classes for one reason: a line names the first of them, and one at the end counts the others. */
public final class Counted {
    private static final Map<String, Integer> REASONS = new TreeMap<>();

    private Counted() { }

    /** @param what that isn't logged */
    public static void isNotLogged(String what, String why) {
        int count;
        synchronized (REASONS) {
            count = REASONS.merge(why, 1, Integer::sum);
        }
        if (count == 1) Log.say(what + " isn't logged: " + why);
    }

    static void sayTheRest() {
        synchronized (REASONS) {
            REASONS.forEach((why, count) -> {
                if (count > 1) Log.say("classes that aren't logged, too: " + (count - 1) + ": " + why);
            });
        }
    }
}
