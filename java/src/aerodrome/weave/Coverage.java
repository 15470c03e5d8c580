package aerodrome.weave;

import org.objectweb.asm.ConstantDynamic;

/**
 * What JaCoCo has put into a method before: it notes in an array, which all threads share, which code was run. That isn't the
 * program's, so it isn't logged. Of a method: the variable that has the array, and whether a store into it comes.
 */
final class Coverage {
    private static final String MARK = "$jacoco";

    private int variable = -1;
    private boolean isTold, isStore;

    /** Whether the method is one that JaCoCo has added. */
    static boolean isOwn(String method) { return method.startsWith(MARK); }

    /** At a call, or at a constant, which may give the array. */
    void called(String method) { isTold = isOwn(method); }
    void constant(Object value) { isTold = value instanceof ConstantDynamic && isOwn(((ConstantDynamic) value).getName()); }

    void stored(int variable) {
        if (isTold) this.variable = variable;
        isTold = false;
    }
    void loaded(int variable) { isStore |= variable == this.variable; }

    /** At a store into an array of bytes: whether the array is this one. */
    boolean isStore() {
        boolean was = isStore;
        isStore = false;
        return was;
    }
}
