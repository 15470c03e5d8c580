package aerodrome.junit;

import aerodrome.log.TestLog;
import aerodrome.names.Text;
import java.io.IOException;
import java.lang.annotation.Annotation;
import java.lang.reflect.Method;
import java.util.List;
import org.junit.jupiter.api.extension.AfterTestExecutionCallback;
import org.junit.jupiter.api.extension.BeforeTestExecutionCallback;
import org.junit.jupiter.api.extension.ExtensionConfigurationException;
import org.junit.jupiter.api.extension.ExtensionContext;

/**
 * Has the agent write a log of each test method, and the checker judge it. The method fails if a block isn't atomic, if its log has
 * no block or ends early, or if its log can't be written or judged. The method itself is no block.
 *
 * The bootstrap loader, which loads the agent, mustn't find this class, because it doesn't find JUnit: see java/build.
 */
public final class AtomicityExtension implements BeforeTestExecutionCallback, AfterTestExecutionCallback {
    private static final ExtensionContext.Namespace OWN = ExtensionContext.Namespace.create(AtomicityExtension.class);
    private static final String PARALLEL = "junit.jupiter.execution.parallel.enabled", PROGRAM = "aerodrome.program";
    private static final String ISOLATED = "org.junit.jupiter.api.parallel.Isolated";
    private static final int MOST_LABEL = 255;
    private static final String CUT = "no violation, but the log ends early, as a line on standard error says: the rest isn't checked";

    @Override public void beforeTestExecution(ExtensionContext context) {
        if (!hasAgent())
            throw new ExtensionConfigurationException("no agent: run the tests with -javaagent:aerodrome-agent.jar=log=logs/%t.std");
        TestLog.asks();
        if (isParallel(context))
            throw new ExtensionConfigurationException("tests run in parallel (" + PARALLEL + "), so a test has no log of its own"
                    + ": annotate the class with @Isolated, or run all tests one after another");
        try {
            context.getStore(OWN).put(Verdict.class, TestLog.begin(name(context)));
        } catch (IOException cannot) {
            throw new ExtensionConfigurationException("no log: " + cannot.getMessage());
        }
    }

    @Override public void afterTestExecution(ExtensionContext context) {
        String log = context.getStore(OWN).remove(Verdict.class, String.class);
        if (log == null) return;
        Method method = context.getRequiredTestMethod();
        String label = Text.clean(method.getDeclaringClass().getName() + "." + method.getName(), MOST_LABEL);
        try {
            List<String> running = TestLog.end();
            if (!running.isEmpty())
                say(context, "threads still run, and their later events aren't in the log: " + String.join(", ", running));
            Verdict verdict = Verdict.of(context.getConfigurationParameter(PROGRAM).orElse("aerodrome"), log, label);
            // A test that fails by itself, or that an assumption aborts, may end before its first block.
            boolean hasRun = context.getExecutionException().isEmpty();
            if (verdict.isViolation || verdict.isOfNothing && hasRun) throw new AssertionError(verdict.text);
            if (!TestLog.isWhole()) throw new AssertionError(CUT);
            if (!verdict.text.isEmpty()) say(context, verdict.text);
        } catch (IOException cannot) {
            throw new ExtensionConfigurationException(log + " isn't judged: " + cannot.getMessage());
        }
    }

    private static void say(ExtensionContext context, String what) {
        System.err.println("aerodrome: " + name(context) + ": " + what);
    }
    private static String name(ExtensionContext context) {
        return context.getRequiredTestClass().getName() + "." + context.getRequiredTestMethod().getName();
    }

    private static boolean hasAgent() {
        try {
            Class.forName("aerodrome.log.TestLog", false, null);
            return true;
        } catch (ClassNotFoundException isNot) {
            return false;
        }
    }

    /** Whether other tests may run meanwhile. */
    private static boolean isParallel(ExtensionContext context) {
        if (!context.getConfigurationParameter(PARALLEL).map(Boolean::parseBoolean).orElse(false)) return false;
        for (Class<?> of = context.getRequiredTestClass(); of != null; of = of.getEnclosingClass())
            for (Annotation one : of.getAnnotations()) if (one.annotationType().getName().equals(ISOLATED)) return false;
        return true;
    }
}
