import java.util.ArrayList;
import java.util.Arrays;
import java.util.List;

/** Ends in the way that its first word names. */
public class Ending {
    static int count;

    static synchronized void add() { count++; }

    public static void main(String[] words) throws Exception {
        switch (words[0]) {
            case "at-once": return;
            case "starts": {
                Thread other = new Thread(() -> { });
                other.start();
                other.join();
                return;
            }
            case "killed":
                add();
                command("kill", "-9", "" + ProcessHandle.current().pid());
                return;
            default:
                // The words are a command, which runs between two calls.
                add();
                command(words);
                add();
        }
    }

    private static void command(String... words) throws Exception {
        List<String> all = new ArrayList<>(Arrays.asList(words));
        System.out.println("status " + new ProcessBuilder(all).inheritIO().start().waitFor());
    }
}
