package aerodrome.hooks;

import aerodrome.log.Log;
import aerodrome.log.LoggedThread;
import java.util.concurrent.BlockingQueue;
import java.util.concurrent.ConcurrentLinkedDeque;
import java.util.concurrent.ConcurrentLinkedQueue;
import java.util.concurrent.locks.AbstractQueuedLongSynchronizer;
import java.util.concurrent.locks.AbstractQueuedSynchronizer;

/** What the code round a call calls. Stubs.java has that code, and Call.java what is logged. */
public final class Calls {
    private Calls() { }

    /** Of a class: whether its equals and hashCode are those of Object, which look at no contents. */
    private static final ClassValue<Boolean> BY_IDENTITY = new ClassValue<Boolean>() {
        @Override protected Boolean computeValue(Class<?> of) {
            try {
                return of.getMethod("equals", Object.class).getDeclaringClass() == Object.class;
            } catch (ReflectiveOperationException | LinkageError unknown) {
                return true;
            }
        }
    };
    private static boolean isComparedByIdentity(Object receiver) { return BY_IDENTITY.get(receiver.getClass()); }

    /** The monitor that the call of a collection takes, so that it is logged by who has it; null where there is none. */
    public static Object monitor(int code, Object receiver) {
        if (!Log.on || receiver == null || Kind.kind(code) == Kind.COLLECTION_COMPARE && isComparedByIdentity(receiver)) return null;
        return Monitors.of(receiver, code);
    }

    /**
     * Returns the code of a call of a method that a class of the program may have: 0 if one has it, because then the events of the
     * method's code count, such as those of a call of the JDK's method.
     *
     * @param method as Methods.isOwn takes it
     */
    public static int code(int code, Object receiver, String method) {
        return Log.on && receiver != null && Methods.isOwn(receiver.getClass(), method) ? 0 : code;
    }

    /** Before a call. What it gives goes to `after` or `failed`, and is null where nothing is logged. */
    public static Call before(int code, Object receiver, Object argument, long index, int site) {
        return before(code, receiver, argument, index, null, site);
    }
    /** Begins a call that changes a key only if the map has the value `expected` under it. */
    public static Call before(int code, Object receiver, Object argument, Object expected, int site) {
        return before(code, receiver, argument, -1, expected, site);
    }
    private static Call before(int code, Object receiver, Object argument, long index, Object expected, int site) {
        LoggedThread me = receiver == null ? null : LoggedThread.logging();
        if (me == null) return null;
        Object of = Kind.kind(code).mayBeOfView() ? Views.origin(receiver) : receiver;
        Kind kind = kind(code, receiver, of, argument);
        if (kind == Kind.NOTHING || me.initializing > 0 && kind.isAccess()) return null;
        Stir.place();
        Call call = new Call(me, receiver, argument, index, expected, site);
        call.before(kind, of);
        return call;
    }

    /** Behind a call. */
    public static void after(Call call) {
        if (call != null) call.after(null, 1);
    }
    public static void after(Call call, Object result) {
        if (call != null) call.after(result, 0);
    }
    public static void after(Call call, boolean isTrue) {
        if (call != null) call.after(null, isTrue ? 1 : 0);
    }
    public static void after(Call call, long number) {
        if (call != null) call.after(null, number);
    }
    /** Behind a call that was to write if it found what is wanted, and did find what it gave. */
    public static void exchanged(Call call, Object wanted, Object found) {
        if (call != null) call.after(null, wanted == found || call.isOfPrimitive() && wanted.equals(found) ? 1 : 0);
    }
    public static void exchanged(Call call, long wanted, long found) {
        if (call != null) call.after(null, wanted == found ? 1 : 0);
    }
    /** Of floats too, each of which is a double: by their bits, as the call compares them. */
    public static void exchanged(Call call, double wanted, double found) {
        if (call != null) call.after(null, Double.doubleToRawLongBits(wanted) == Double.doubleToRawLongBits(found) ? 1 : 0);
    }
    public static void failed(Call call, Throwable thrown) {
        if (call != null) call.failed(thrown);
    }

    /** Returns the kind that fits the receiver, and the collection or map behind it. */
    private static Kind kind(int code, Object receiver, Object of, Object argument) {
        Kind kind = Kind.kind(code);
        if (kind.ofState()) return isSynchronizer(receiver) ? kind : Kind.NOTHING;
        if (kind.isOpen()) return receiver.getClass().getClassLoader() == null ? kind.closed() : kind.apart();
        if (argument == null && isUnsafe(receiver)) return Kind.NOTHING;
        if (!kind.isContents()) return kind;
        if (!Views.mayAccess(receiver, of, Kind.isChange(code))) return Kind.NOTHING;
        if (Kind.ofMap(code) != Kind.NOTHING && Maps.hasKeys(of)) return Maps.kind(Kind.ofMap(code), receiver);
        if (Kind.ofQueue(code) != Kind.NOTHING && isQueue(of)) return Views.ofQueue(Kind.ofQueue(code), receiver);
        if (kind == Kind.COLLECTION_COMPARE) return isComparedByIdentity(receiver) ? Kind.NOTHING : Kind.COLLECTION_READ;
        return kind;
    }
    private static boolean isSynchronizer(Object receiver) {
        return receiver instanceof AbstractQueuedSynchronizer || receiver instanceof AbstractQueuedLongSynchronizer;
    }
    /** By its name, as its class may not be there. */
    static boolean isUnsafe(Object receiver) { return receiver.getClass().getName().equals("sun.misc.Unsafe"); }
    static boolean isQueue(Object receiver) {
        return receiver instanceof BlockingQueue || receiver instanceof ConcurrentLinkedQueue
                || receiver instanceof ConcurrentLinkedDeque;
    }
}
