package aerodrome.weave;

import static org.objectweb.asm.Opcodes.*;

import aerodrome.Options;
import aerodrome.hooks.Kind;
import java.util.ArrayList;
import java.util.List;
import java.util.Set;
import org.objectweb.asm.Label;
import org.objectweb.asm.MethodVisitor;
import org.objectweb.asm.Type;

/**
 * The code of a stub:
 *
 *     static R aero$N(Owner receiver, A a, .., int site) {
 *         Call call = Calls.before(CODE, receiver, a, index, site);
 *         R result;
 *         try { result = receiver.method(a, ..); } catch (Throwable thrown) { Calls.failed(call); throw thrown; }
 *         Calls.after(call, result);
 *         return result;
 *     }
 *
 * That of a VarHandle's method begins with what links the call (Handles), and calls Handles.before. A call of a collection that
 * takes a monitor (Calls.monitor) is made, and logged, by a thread that has the monitor already: the same code within
 * `synchronized (monitor)`.
 */
final class StubWriter {
    private static final String CALLS = "aerodrome/hooks/Calls", HANDLES = "aerodrome/hooks/Handles", CALL = "aerodrome/hooks/Call";
    private static final String OBJECT = "Ljava/lang/Object;", HANDLE = "Ljava/lang/invoke/VarHandle;";

    private static final Set<String> WITHIN = Set.of("putIfAbsent(" + OBJECT + OBJECT + ")" + OBJECT,
            "computeIfAbsent(" + OBJECT + "Ljava/util/function/Function;)" + OBJECT,
            "computeIfPresent(" + OBJECT + "Ljava/util/function/BiFunction;)" + OBJECT,
            "compute(" + OBJECT + "Ljava/util/function/BiFunction;)" + OBJECT,
            "merge(" + OBJECT + OBJECT + "Ljava/util/function/BiFunction;)" + OBJECT,
            "remove(" + OBJECT + ")" + OBJECT, "replace(" + OBJECT + OBJECT + ")" + OBJECT,
            "remove(" + OBJECT + OBJECT + ")Z", "replace(" + OBJECT + OBJECT + OBJECT + ")Z");
    /** Those whose second argument is a value that they expect. */
    private static final Set<String> EXPECTING = Set.of("remove(" + OBJECT + OBJECT + ")Z", "replace(" + OBJECT + OBJECT + OBJECT + ")Z");

    /** Methods of collections that don't take the monitor of those that have one. */
    private static final Set<String> WITHOUT_MONITOR = Set.of("iterator", "descendingIterator", "listIterator", "stream",
            "parallelStream", "spliterator", "elements", "keys", "keySet", "entrySet", "values", "reversed");

    private final MethodVisitor code;
    private final Stub stub;
    private final boolean hasFrames;
    private final Type[] arguments;
    private final Type gives;
    private final boolean mayLock;
    private final int monitor, call, result;

    StubWriter(MethodVisitor code, Stub stub, boolean hasFrames) {
        this.code = code;
        this.stub = stub;
        this.hasFrames = hasFrames;
        arguments = stub.call.arguments();
        gives = stub.call.result();
        mayLock = stub.form < 0 && Kind.isOfCollection(stub.code) && !WITHOUT_MONITOR.contains(stub.call.name);
        monitor = stub.site() + 1;
        call = mayLock ? monitor + 1 : monitor;
        result = call + 1;
    }

    void write() {
        if (stub.form >= 0) link();
        if (mayLock) locked();
        Body body = new Body();
        body.write();
        give();
        body.writeHandler();
    }

    /** The call where there is a monitor. */
    private void locked() {
        Label none = new Label(), start = new Label(), end = new Label(), handler = new Label();
        Label startOfThrown = new Label(), endOfThrown = new Label();
        code.visitLdcInsn(stub.code);
        code.visitVarInsn(ALOAD, 0);
        code.visitMethodInsn(INVOKESTATIC, CALLS, "monitor", "(I" + OBJECT + ")" + OBJECT, false);
        code.visitVarInsn(ASTORE, monitor);
        code.visitVarInsn(ALOAD, monitor);
        code.visitJumpInsn(IFNULL, none);
        code.visitVarInsn(ALOAD, monitor);
        code.visitInsn(MONITORENTER);
        Body body = new Body();
        code.visitTryCatchBlock(start, end, handler, null);
        code.visitTryCatchBlock(startOfThrown, endOfThrown, handler, null);
        code.visitLabel(start);
        body.write();
        code.visitVarInsn(ALOAD, monitor);
        code.visitInsn(MONITOREXIT);
        code.visitLabel(end);
        give();
        code.visitLabel(startOfThrown);
        body.writeHandler();
        code.visitLabel(endOfThrown);
        code.visitLabel(handler);
        frame(false, true);
        code.visitVarInsn(ALOAD, monitor);
        code.visitInsn(MONITOREXIT);
        code.visitInsn(ATHROW);
        code.visitLabel(none);
        frame(false, false);
    }

    /** Gives back what the call gave. */
    private void give() {
        if (gives != Type.VOID_TYPE) code.visitVarInsn(gives.getOpcode(ILOAD), result);
        code.visitInsn(gives.getOpcode(IRETURN));
    }

    /** The call with what logs it, and the handler of what it throws. */
    private final class Body {
        private final Label start = new Label(), end = new Label(), handler = new Label();

        Body() { code.visitTryCatchBlock(start, end, handler, null); }

        void write() {
            before();
            code.visitLabel(start);
            invoke();
            if (gives != Type.VOID_TYPE) code.visitVarInsn(gives.getOpcode(ISTORE), result);
            code.visitLabel(end);
            after();
        }
        void writeHandler() {
            code.visitLabel(handler);
            frame(true, true);
            code.visitVarInsn(ASTORE, result);
            code.visitVarInsn(ALOAD, call);
            code.visitVarInsn(ALOAD, result);
            code.visitMethodInsn(INVOKESTATIC, CALLS, "failed", "(L" + CALL + ";Ljava/lang/Throwable;)V", false);
            code.visitVarInsn(ALOAD, result);
            code.visitInsn(ATHROW);
        }
    }

    /** Makes the call of no handle, once. */
    private void link() {
        Label start = new Label(), end = new Label(), handler = new Label(), made = new Label(), linked = new Label();
        code.visitTryCatchBlock(start, end, handler, null);
        code.visitLdcInsn(stub.form);
        code.visitMethodInsn(INVOKESTATIC, HANDLES, "isLinked", "(I)Z", false);
        code.visitJumpInsn(IFNE, linked);
        code.visitLabel(start);
        code.visitInsn(ACONST_NULL);
        loadArguments();
        stub.call.write(code);
        if (gives != Type.VOID_TYPE) code.visitInsn(gives.getSize() == 2 ? POP2 : POP);
        code.visitLabel(end);
        code.visitJumpInsn(GOTO, made);
        code.visitLabel(handler);
        frame(false, true);
        code.visitInsn(POP);
        code.visitLabel(made);
        frame(false, false);
        code.visitLdcInsn(stub.form);
        code.visitMethodInsn(INVOKESTATIC, HANDLES, "link", "(I)V", false);
        code.visitLabel(linked);
        frame(false, false);
    }

    private void before() {
        code();
        if (!stub.call.isStatic()) code.visitVarInsn(ALOAD, 0);
        else code.visitMethodInsn(INVOKESTATIC, "java/lang/Thread", "currentThread", "()Ljava/lang/Thread;", false);
        boolean hasObject = arguments.length > 0 && arguments[0].getSort() >= Type.ARRAY;
        if (hasObject) code.visitVarInsn(ALOAD, stub.firstArgument());
        else code.visitInsn(ACONST_NULL);
        boolean isExpecting = Kind.isWithin(stub.code) && EXPECTING.contains(stub.call.name + stub.call.descriptor);
        if (stub.form >= 0) handleIndex();
        else if (isExpecting) code.visitVarInsn(ALOAD, stub.firstArgument() + 1);
        else index(hasObject);
        code.visitVarInsn(ILOAD, stub.site());
        String given = stub.form >= 0 ? HANDLE + OBJECT + "I" : OBJECT + OBJECT + (isExpecting ? OBJECT : "J");
        code.visitMethodInsn(INVOKESTATIC, stub.form >= 0 ? HANDLES : CALLS, "before", "(I" + given + "I)L" + CALL + ";", false);
        code.visitVarInsn(ASTORE, call);
    }
    /** Pushes the form, or the code, which depends on the receiver if a class of the program may have the method. */
    private void code() {
        code.visitLdcInsn(stub.form >= 0 ? stub.form : stub.code);
        boolean isOfProgram = Options.covers(stub.call.owner);
        boolean isOfJdk = stub.call.isStatic() || !isOfProgram && (stub.call.isSpecial() || Kind.isOfVariable(stub.code));
        if (stub.form >= 0 || isOfJdk || !Kind.isOfMethod(stub.code)) return;
        code.visitVarInsn(ALOAD, 0);
        code.visitLdcInsn((stub.call.isSpecial() ? stub.call.owner + "." : "") + stub.call.name + stub.call.descriptor);
        code.visitMethodInsn(INVOKESTATIC, CALLS, "code", "(I" + OBJECT + "Ljava/lang/String;)I", false);
    }
    /** The first argument if it is an int, or a stamp, the second if it is a long behind an object, else -1. */
    private void index(boolean hasObject) {
        if (arguments.length > 0 && arguments[0] == Type.INT_TYPE) {
            code.visitVarInsn(ILOAD, stub.firstArgument());
            code.visitInsn(I2L);
        } else if (isStamp()) code.visitVarInsn(LLOAD, stub.firstArgument());
        else if (hasObject && arguments.length > 1 && arguments[1] == Type.LONG_TYPE)
            code.visitVarInsn(LLOAD, stub.firstArgument() + 1);
        else code.visitLdcInsn(-1L);
    }
    private boolean isStamp() { return arguments.length > 0 && arguments[0] == Type.LONG_TYPE && Kind.isStamped(stub.code); }
    private void handleIndex() {
        if (arguments.length > 1 && arguments[0].getSize() == 1 && arguments[1] == Type.INT_TYPE) code.visitVarInsn(ILOAD, 2);
        else code.visitInsn(ICONST_M1);
    }

    private void invoke() {
        if (!stub.call.isStatic()) code.visitVarInsn(ALOAD, 0);
        loadArguments();
        if (!isWithin()) {
            stub.call.write(code);
            return;
        }
        code.visitVarInsn(ALOAD, call);
        String given = "(Ljava/util/Map;" + stub.call.descriptor.substring(1).replace(")", "L" + CALL + ";)");
        code.visitMethodInsn(INVOKESTATIC, "aerodrome/hooks/Within", stub.call.name, given, false);
    }
    /** Whether Within makes the call. */
    private boolean isWithin() {
        boolean isOne = WITHIN.contains(stub.call.name + stub.call.descriptor);
        return isOne && Kind.isWithin(stub.code) && !stub.call.isSpecial();
    }
    private void loadArguments() {
        int at = stub.firstArgument();
        for (Type one : arguments) {
            code.visitVarInsn(one.getOpcode(ILOAD), at);
            if (Kind.isUpdate(stub.code) && one.getDescriptor().startsWith("Ljava/util/function/")) tell(one);
            at += one.getSize();
        }
    }
    /** Puts a function in the place of that on the stack. */
    private void tell(Type function) {
        code.visitVarInsn(ALOAD, call);
        String given = "(" + function + "L" + CALL + ";)" + function;
        code.visitMethodInsn(INVOKESTATIC, "aerodrome/hooks/Updates", "telling", given, false);
    }

    private void after() {
        code.visitVarInsn(ALOAD, call);
        if (Kind.isExchange(stub.code) && gives != Type.VOID_TYPE) {
            afterExchange();
            return;
        }
        boolean isObject = gives.getSort() >= Type.ARRAY, isInt = gives == Type.INT_TYPE;
        String given = isObject ? OBJECT : gives == Type.BOOLEAN_TYPE ? "Z" : isInt || gives == Type.LONG_TYPE ? "J" : "";
        if (!given.isEmpty()) code.visitVarInsn(gives.getOpcode(ILOAD), result);
        if (isInt) code.visitInsn(I2L);
        code.visitMethodInsn(INVOKESTATIC, CALLS, "after", "(L" + CALL + ";" + given + ")V", false);
    }

    /** What the call was to find, which is its last argument but one, and what it found: both as the wider of their types. */
    private void afterExchange() {
        int place = arguments.length - 2, at = stub.firstArgument();
        for (int one = 0; one < place; one++) at += arguments[one].getSize();
        Type wanted = arguments[place], wide = wide(gives);
        if (wanted.getSort() >= Type.ARRAY != gives.getSort() >= Type.ARRAY) {
            code.visitMethodInsn(INVOKESTATIC, CALLS, "after", "(L" + CALL + ";)V", false);
            return;
        }
        load(wanted, at, wide);
        load(gives, result, wide);
        code.visitMethodInsn(INVOKESTATIC, CALLS, "exchanged", "(L" + CALL + ";" + wide + wide + ")V", false);
    }
    private static Type wide(Type type) {
        if (type.getSort() >= Type.ARRAY) return Type.getType(OBJECT);
        return type == Type.FLOAT_TYPE || type == Type.DOUBLE_TYPE ? Type.DOUBLE_TYPE : Type.LONG_TYPE;
    }
    private void load(Type type, int variable, Type as) {
        code.visitVarInsn(type.getOpcode(ILOAD), variable);
        boolean isDouble = as == Type.DOUBLE_TYPE, isInt = type.getSort() <= Type.INT;
        if (isInt && as.getSort() != Type.OBJECT) code.visitInsn(isDouble ? I2D : I2L);
        else if (isDouble && type == Type.LONG_TYPE) code.visitInsn(L2D);
        else if (isDouble && type == Type.FLOAT_TYPE) code.visitInsn(F2D);
    }

    /** The stub's arguments, with the call behind them or without, and on the stack what was thrown or nothing. */
    private void frame(boolean hasCall, boolean hasThrown) {
        if (!hasFrames) return;
        List<Object> locals = new ArrayList<>();
        for (Type one : Type.getArgumentTypes(stub.descriptor)) locals.add(inFrame(one));
        if (mayLock) locals.add("java/lang/Object");
        if (hasCall) locals.add(CALL);
        Object[] stack = hasThrown ? new Object[] {"java/lang/Throwable"} : new Object[0];
        code.visitFrame(F_NEW, locals.size(), locals.toArray(), stack.length, stack);
    }
    private static Object inFrame(Type type) {
        switch (type.getSort()) {
            case Type.LONG: return LONG;
            case Type.DOUBLE: return DOUBLE;
            case Type.FLOAT: return FLOAT;
            case Type.ARRAY: case Type.OBJECT: return type.getInternalName();
            default: return INTEGER;
        }
    }
}
