package aerodrome;

import aerodrome.hooks.Locks;
import aerodrome.hooks.Monitors;
import aerodrome.hooks.Views;
import aerodrome.log.Log;
import aerodrome.log.LoggedThread;
import aerodrome.log.Sink;
import aerodrome.log.ThreadName;
import aerodrome.weave.ClassFile;
import aerodrome.weave.JdkWeaver;
import aerodrome.weave.Table;
import aerodrome.weave.Weaver;
import java.io.IOException;
import java.lang.instrument.Instrumentation;
import java.util.Map;
import java.util.Set;

/**
 * The start. `java -javaagent:aerodrome-agent.jar=log=trace.std ..` writes what the program does as a trace for aerodrome.
 *
 * Weaver instruments the program's classes as they are loaded, and JdkWeaver a few methods of the JDK's, by what the file `table`
 * says. What instrumented code calls stands in `hooks`. It writes lines by `log`, with the names that `names` gives.
 */
public final class Agent {
    /** A JVM may name the agent twice, as in JAVA_TOOL_OPTIONS and on its command line. */
    private static boolean isStarted;

    private Agent() { }

    public static void premain(String string, Instrumentation with) {
        if (isStarted) {
            Log.say("the agent is loaded twice: only the first one logs");
            return;
        }
        isStarted = true;
        String wrong = Options.read(string, System.getenv());
        if (wrong != null) {
            Log.say(wrong + ": nothing is logged");
            return;
        }
        // Classes of the JDK call hooks too, so these have to be found where the JDK's classes are.
        if (Agent.class.getClassLoader() != null) {
            Log.say("the agent's file isn't called aerodrome-agent.jar: nothing is logged");
            return;
        }
        try {
            int version = ClassFile.unreadable();
            if (version > 0) {
                Log.say("this Java is too new (class file version " + version + "): nothing is logged");
                return;
            }
            String wrongNames = ThreadName.open(Options.threads);
            if (wrongNames != null) {
                Log.say("threads=" + Options.threads + ": " + wrongNames + ": nothing is logged");
                return;
            }
            if (!Options.isOfTests) Log.start(Sink.open(Options.log), Options.limit);
        } catch (IOException cannot) {
            Log.say(Options.log + ": " + Sink.why(cannot) + ": nothing is logged");
            return;
        }
        try {
            instrument(with);
        } catch (Throwable failed) {
            Log.say(failed + ": nothing is logged");
            Log.abandon();
        }
    }

    private static void instrument(Instrumentation with) throws Exception {
        Module own = Agent.class.getModule();
        // The synchronizers of locks, by which these have names, and the collections of iterators and views are fields of such classes.
        Map<String, Set<Module>> opened = Map.of("java.util.concurrent.locks", Set.of(own), "java.util.concurrent", Set.of(own),
                "java.util", Set.of(own));
        with.redefineModule(Object.class.getModule(), Set.of(), Map.of(), opened, Set.of(), Map.of());
        Locks.start();
        Monitors.start();
        Views.start();
        Table table = Table.read();
        JdkWeaver jdk = new JdkWeaver(table);
        with.addTransformer(jdk, true);
        with.retransformClasses(jdk.classes());
        jdk.sayWhatIsMissing();
        with.addTransformer(new Weaver(with, table));
        LoggedThread.current();
        Log.on = true;
    }
}
