package aerodrome.weave;

import java.util.List;
import java.util.Locale;

/** A method of the JDK that calls a hook. */
final class JdkHook {
    enum Where { ENTRY, EXIT, ALWAYS, RUN, RESULT, SWAP, LOOK, FOUND }

    /** Names of classes are a/b/C. */
    final String owner, method;
    private final String descriptor;
    final Where where;
    /** The second name is that of the hook behind what the first one stands before, if there is one. */
    final String hookOwner, hookName, hookBehind;
    /** What the hook gets, in this order. */
    final List<String> given;
    /** Whether another JDK has it in the place of the one before, or some JDKs haven't it. */
    final boolean isElse, isAlso;
    boolean isFound;

    /** A line of the table: hook CLASS.METHOD[DESCRIPTOR] WHERE CLASS.HOOK[/HOOK BEHIND] [WHAT IT IS GIVEN].. */
    JdkHook(String[] words) {
        isElse = words[0].equals("else");
        isAlso = words[0].equals("also");
        int end = words[1].indexOf('(') < 0 ? words[1].length() : words[1].indexOf('(');
        int dot = words[1].lastIndexOf('.', end);
        owner = words[1].substring(0, dot).replace('.', '/');
        method = words[1].substring(dot + 1, end);
        descriptor = words[1].substring(end);
        where = Where.valueOf(words[2].toUpperCase(Locale.ROOT));
        dot = words[3].indexOf('.');
        hookOwner = "aerodrome/hooks/" + words[3].substring(0, dot);
        String[] names = words[3].substring(dot + 1).split("/");
        hookName = names[0];
        hookBehind = names[names.length - 1];
        given = List.of(words).subList(4, words.length);
    }

    /** Whether it stands somewhere within the method, if there is a place for it. */
    boolean isWithin() { return where == Where.RUN || where == Where.SWAP || where == Where.LOOK || where == Where.FOUND; }

    boolean isAt(String owner, String method, String descriptor) {
        boolean isNamed = this.method.startsWith("*") ? method.endsWith(this.method.substring(1)) : method.equals(this.method);
        return isNamed && this.owner.equals(owner)
                && (this.descriptor.isEmpty() || this.descriptor.equals(descriptor));
    }
}
