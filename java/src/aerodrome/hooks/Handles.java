package aerodrome.hooks;

import aerodrome.log.Line;
import aerodrome.log.Log;
import aerodrome.log.LoggedThread;
import aerodrome.names.FieldName;
import aerodrome.names.Numbers;
import java.lang.invoke.VarHandle;
import java.lang.reflect.Field;
import java.lang.reflect.Modifier;
import java.nio.ByteBuffer;
import java.util.ArrayList;
import java.util.List;

/**
 * Accesses by a VarHandle, which are made under the log's lock. The first one in a class by a method of VarHandle is linked by the
 * system, which may load classes of the program. So the code round the access links it before: it makes the same call of no
 * handle at all, which is linked, and then fails.
 */
public final class Handles {
    /** How a class calls a method of VarHandle. */
    private static final class Form {
        final Kind kind;
        final VarHandle.AccessMode mode;
        volatile boolean isLinked;

        Form(Kind kind, VarHandle.AccessMode mode) {
            this.kind = kind;
            this.mode = mode;
        }
    }
    private static final List<Form> FORMS = new ArrayList<>();
    private static volatile Form[] forms = {};

    private Handles() { }

    /** The number of a new form, by which instrumented code knows it. */
    public static int form(int code, String method) {
        synchronized (FORMS) {
            FORMS.add(new Form(Kind.kind(code), VarHandle.AccessMode.valueFromMethodName(method)));
            forms = FORMS.toArray(new Form[0]);
            return FORMS.size() - 1;
        }
    }

    public static boolean isLinked(int form) { return forms[form].isLinked; }
    public static void link(int form) { forms[form].isLinked = true; }

    /** Before an access. What it gives goes to Calls.after or Calls.failed. */
    public static Call before(int form, VarHandle handle, Object first, int index, int site) {
        LoggedThread me = handle == null ? null : LoggedThread.accessing();
        if (me == null) return null;
        Object field = Numbers.tied(handle);
        // What the handle itself makes at its first access in this mode is made by the question whether there is such a mode.
        boolean isThere = field instanceof FieldName ? ((FieldName) field).isOf(first) : first != null;
        if (!isThere || !handle.isAccessModeSupported(forms[form].mode)) return null;
        Call call = new Call(me, handle, first, index, site);
        call.before(isDirect(handle) ? forms[form].kind : forms[form].kind.apart(), handle);
        return call;
    }

    /** Whether its accesses run no code of the program. */
    private static boolean isDirect(VarHandle handle) {
        return handle.getClass().getName().startsWith("java.lang.invoke.VarHandle");
    }

    static boolean isHandle(Object receiver) { return receiver instanceof VarHandle; }

    /** The element of an array or a buffer, or what else a handle of no known field accesses. */
    static void putElement(Line line, Object object, long index) {
        Events.putObject(line, object);
        if (object.getClass().isArray()) Accesses.putIndex(line, index);
        else if (object instanceof ByteBuffer) line.put('[').put(index).put(']');
    }

    // ---- names

    /** What was made as an updater or a handle of a field has the field's name. */
    public static Object named(Object made, Class<?> of, String field, boolean isStatic) {
        if (made != null && Log.on) Numbers.tie(made, new FieldName(of, field, isStatic));
        return made;
    }
    public static Object named(Object made, Field field) {
        return named(made, field.getDeclaringClass(), field.getName(), Modifier.isStatic(field.getModifiers()));
    }
    /** What was made of another handle is one of the same field. */
    public static Object named(Object made, Object of) {
        Object field = made != null && Log.on ? Numbers.tied(of) : null;
        if (field instanceof FieldName) Numbers.tie(made, field);
        return made;
    }
}
