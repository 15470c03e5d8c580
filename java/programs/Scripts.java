import org.python.core.PySystemState;
import org.python.util.PythonInterpreter;

/** Threads that each run a script of Python's by Jython: Scripts THREADS ROUNDS. Says the sum of what the scripts made. */
public class Scripts {
    private static final String SCRIPT = String.join("\n",
            "class Row(object):",
            "    def __init__(self, by): self.by = by",
            "    def times(self): return [one * self.by for one in range(5)]",
            "made, kept = 0, {}",
            "for number in range(rounds):",
            "    kept[number % 3] = Row(number).times()",
            "    made += sum(kept[number % 3])",
            "");

    public static void main(String[] words) throws Exception {
        int rounds = Integer.parseInt(words[1]);
        long[] made = new long[Integer.parseInt(words[0])];
        PySystemState.initialize();
        Threads.run(made.length, me -> {
            PythonInterpreter python = new PythonInterpreter(null, new PySystemState());
            python.set("rounds", rounds);
            python.exec(SCRIPT);
            made[me] = python.get("made").asLong();
        });
        long sum = 0;
        for (long one : made) sum += one;
        System.out.println("made " + sum);
    }
}
