package aerodrome.names;

import java.lang.ref.WeakReference;
import java.util.Arrays;

/** A place in the code from which something is logged. Instrumented code has its number. */
public final class Site {
    private static final int MOST_LABEL = 255;
    private enum State { UNKNOWN, LOGGED, SKIPPED }

    private static volatile Site[] all = new Site[4096];
    private static int count;
    /** Of what isn't called from a known place. */
    public static final int NOWHERE = place(Text.bytes("\n"));

    /** `|Bank.java:12` and a newline. */
    public final byte[] place;
    /** How the line begins: `r(Bank.balance@` of a field, `r(bank.Bank.total)` of a static one, `begin(Bank.pay)` of a block. */
    private byte[] text;
    private final char operation;
    private final String owner, field;
    /** That of the class that has the code. */
    private final WeakReference<ClassLoader> loader;
    private volatile State state = State.UNKNOWN;

    private Site(byte[] place, byte[] text, char operation, WeakReference<ClassLoader> loader, String owner, String field) {
        this.place = place;
        this.text = text;
        this.operation = operation;
        this.loader = loader;
        this.owner = owner;
        this.field = field;
    }

    public static int place(byte[] place) { return add(new Site(place, null, ' ', null, null, null)); }
    public static int block(byte[] place, String label) {
        return add(new Site(place, Text.bytes("begin(" + Text.clean(label, MOST_LABEL) + ")"), ' ', null, null, null));
    }
    public static int field(byte[] place, char operation, WeakReference<ClassLoader> loader, String owner, String field) {
        return add(new Site(place, null, operation, loader, owner, field));
    }

    private static synchronized int add(Site made) {
        if (count == all.length) all = Arrays.copyOf(all, 2 * count);
        all[count] = made;
        return count++;
    }
    public static Site get(int number) { return all[number]; }

    public byte[] text() { return text; }

    /** Whether the field is logged, whose text is there then. The class that has the field is known once the access is made. */
    public boolean isLogged(boolean isStatic) {
        if (state == State.UNKNOWN) resolve(isStatic);
        return state == State.LOGGED;
    }
    private void resolve(boolean isStatic) {
        ClassLoader by = loader.get();
        if (!Fields.isLogged(by, owner, field)) {
            state = State.SKIPPED;
            return;
        }
        String shown = isStatic ? shownStatic(by) + ")" : Fields.shown(by, owner, field) + "@";
        text = Text.bytes(operation + "(" + shown);
        state = State.LOGGED;
    }
    /** The code has read the field already, so the system knows to which class its name leads. */
    private String shownStatic(ClassLoader by) {
        try {
            return Fields.shown(Class.forName(owner.replace('/', '.'), false, by), field);
        } catch (ClassNotFoundException | LinkageError unknown) {
            return Fields.shownByName(by, owner, field);
        }
    }
}
