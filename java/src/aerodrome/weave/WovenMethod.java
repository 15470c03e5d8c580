package aerodrome.weave;

import static org.objectweb.asm.Opcodes.*;

import aerodrome.Options;
import aerodrome.names.Fields;
import aerodrome.names.Site;
import java.util.Arrays;
import java.util.HashMap;
import java.util.Map;
import org.objectweb.asm.Handle;
import org.objectweb.asm.Label;
import org.objectweb.asm.MethodVisitor;
import org.objectweb.asm.Type;
import org.objectweb.asm.commons.AdviceAdapter;

/** A method as it is instrumented. What leaves the stack as it was goes to `mv`, past the adapter. */
final class WovenMethod extends AdviceAdapter {
    private static final String ACCESSES = "aerodrome/hooks/Accesses", BLOCKS = "aerodrome/hooks/Blocks";
    private static final String OBJECT = "Ljava/lang/Object;";

    private final WovenClass of;
    private final String label;
    private final boolean isLight, isBlock, isSynchronized, isStatic, isConstructor, isInitializer;
    private final Label start = new Label();
    private final Coverage coverage = new Coverage();
    private final boolean isCatching;
    /** The handlers of errors, with what stands behind their hooks, and one that has begun whose first instruction hasn't come. */
    private final Map<Label, Label> handlers = new HashMap<>();
    private Label caught;
    /** The variable that has how much was open when the method began; below 0 where there is none. */
    private int depth = -1;
    private boolean entered;
    private int line;

    WovenMethod(MethodVisitor to, int access, String method, String descriptor, WovenClass of) {
        super(ASM9, to, access, method, descriptor);
        this.of = of;
        line = of.firstLine(method, descriptor);
        label = of.name.replace('/', '.') + "." + method;
        isLight = of.isLight(method, descriptor);
        boolean isMeant = (access & ACC_SYNTHETIC) == 0 && !of.isForked(method, descriptor);
        isBlock = Options.isBlock(label, isMeant, of.isAnnotated(method, descriptor));
        isSynchronized = (access & ACC_SYNCHRONIZED) != 0;
        isStatic = (access & ACC_STATIC) != 0;
        isConstructor = method.equals("<init>");
        isCatching = !isConstructor && !isLight && of.isCatching(method, descriptor);
        isInitializer = method.equals("<clinit>") && !Options.finals;
    }

    @Override
    public void visitLineNumber(int line, Label at) {
        this.line = line;
        super.visitLineNumber(line, at);
    }

    private void call(String owner, String hook, String descriptor) {
        mv.visitMethodInsn(INVOKESTATIC, owner, hook, descriptor, false);
    }
    private void pushSite() { mv.visitLdcInsn(of.site(line)); }

    // ---- entry and exit

    @Override
    protected void onMethodEnter() {
        entered = true;
        if (opened() == 0 && !isCatching) return;
        depth = newLocal(Type.INT_TYPE);
        call(BLOCKS, "depth", "()I");
        mv.visitVarInsn(ISTORE, depth);
        if (isBlock) {
            mv.visitLdcInsn(Site.block(of.place(line), label));
            call(BLOCKS, "begin", "(I)V");
        }
        if (isSynchronized) {
            pushMonitor();
            pushSite();
            call(BLOCKS, "enteredMethod", "(" + OBJECT + "I)V");
        }
        if (isInitializer) call(BLOCKS, "initializes", "()V");
        if (opened() > 0) mv.visitLabel(start);
    }
    /** How much the method itself opens. */
    private int opened() { return (isBlock ? 1 : 0) + (isSynchronized ? 1 : 0) + (isInitializer ? 1 : 0); }
    private void pushMonitor() {
        if (!isStatic) mv.visitVarInsn(ALOAD, 0);
        else if (of.version >= WovenClass.CLASS_CONSTANTS) mv.visitLdcInsn(Type.getObjectType(of.name));
        else {
            mv.visitLdcInsn(of.name.replace('/', '.'));
            mv.visitMethodInsn(INVOKESTATIC, "java/lang/Class", "forName", "(Ljava/lang/String;)Ljava/lang/Class;", false);
        }
    }

    @Override
    protected void onMethodExit(int opcode) {
        if (opcode != ATHROW) leave();
    }
    private void leave() {
        if (!entered || opened() == 0) return;
        mv.visitVarInsn(ILOAD, depth);
        pushSite();
        call(BLOCKS, "leave", "(II)V");
    }

    /** An exception that leaves the method: one handler for all of it. */
    @Override
    public void visitMaxs(int stack, int locals) {
        if (entered && opened() > 0) {
            Label end = new Label();
            mv.visitTryCatchBlock(start, end, end, null);
            mv.visitLabel(end);
            if (of.version >= WovenClass.FRAMES) visitHandlerFrame();
            leave();
            mv.visitInsn(ATHROW);
        }
        super.visitMaxs(stack, locals);
    }

    /** Of the variables it has that of the depth alone. */
    private void visitHandlerFrame() {
        Object[] variables = new Object[depth + 1];
        Arrays.fill(variables, TOP);
        variables[depth] = INTEGER;
        mv.visitFrame(F_NEW, depth + 1, variables, 1, new Object[] {"java/lang/Throwable"});
    }

    // ---- errors that are caught: a full stack may have come between a hook and what it was to write

    static boolean isOfErrors(String type) {
        return type == null || type.matches("java/lang/(Throwable|Error|VirtualMachineError|StackOverflowError)");
    }

    /**
     * A handler may be within what it handles, as javac has it for `finally`. Its hook is not: for a stack that is too full for the
     * hook, it would begin again and again.
     */
    @Override
    public void visitTryCatchBlock(Label start, Label end, Label handler, String type) {
        boolean isHooked = isCatching && isOfErrors(type);
        Label behind = isHooked ? handlers.computeIfAbsent(handler, one -> new Label()) : null;
        super.visitTryCatchBlock(isHooked && start == handler ? behind : start, end, handler, type);
    }
    @Override
    public void visitLabel(Label label) {
        if (handlers.containsKey(label)) caught = label;
        super.visitLabel(label);
    }
    /** Before the first instruction of a handler. */
    private void caught() {
        if (caught == null) return;
        mv.visitVarInsn(ILOAD, depth);
        mv.visitLdcInsn(opened());
        pushSite();
        call(BLOCKS, "caught", "(III)V");
        mv.visitLabel(handlers.get(caught));
        caught = null;
    }
    @Override
    public void visitIntInsn(int opcode, int operand) {
        caught();
        super.visitIntInsn(opcode, operand);
    }
    @Override
    public void visitJumpInsn(int opcode, Label to) {
        caught();
        super.visitJumpInsn(opcode, to);
    }
    @Override
    public void visitVarInsn(int opcode, int variable) {
        caught();
        if (opcode == ASTORE) coverage.stored(variable);
        if (opcode == ALOAD) coverage.loaded(variable);
        super.visitVarInsn(opcode, variable);
    }
    @Override
    public void visitTypeInsn(int opcode, String type) {
        caught();
        super.visitTypeInsn(opcode, type);
    }

    // ---- fields

    @Override
    public void visitFieldInsn(int opcode, String owner, String name, String descriptor) {
        caught();
        boolean isOwn = owner.equals(of.name);
        boolean isUnborn = opcode == PUTFIELD && isConstructor && !entered && isOwn;
        if (isLight || isUnborn || !Options.covers(owner) || isOwn && isSkipped(name)) {
            super.visitFieldInsn(opcode, owner, name, descriptor);
            return;
        }
        if (Fields.isVolatile(of.loader(), owner, name)) stir();
        int site = of.site(line, opcode == GETFIELD || opcode == GETSTATIC ? 'r' : 'w', owner, name);
        if (opcode == GETSTATIC || opcode == PUTSTATIC) {
            readOnce(GETSTATIC, owner, name, descriptor);
            mv.visitLdcInsn(site);
            call(ACCESSES, "staticField", "(I)V");
        } else {
            if (opcode == PUTFIELD) bringObjectUp(isWide(descriptor));
            else mv.visitInsn(DUP);
            mv.visitInsn(DUP);
            readOnce(GETFIELD, owner, name, descriptor);
            mv.visitLdcInsn(site);
            call(ACCESSES, "field", "(" + OBJECT + "I)V");
        }
        super.visitFieldInsn(opcode, owner, name, descriptor);
        call(ACCESSES, "done", "()V");
    }
    /** Whether the class's own field isn't logged. */
    private boolean isSkipped(String field) {
        return Fields.has(of.loader(), of.name, field) && !Fields.isLogged(of.loader(), of.name, field);
    }
    /** Asks whether to wait here, where the options say so. */
    private void stir() {
        if (Options.stir >= 0) call("aerodrome/hooks/Stir", "place", "()V");
    }
    private static boolean isWide(String descriptor) { return descriptor.equals("J") || descriptor.equals("D"); }

    /** Reads the field before the log's lock is taken: by then its class is loaded and initialized, and its object isn't null. */
    private void readOnce(int opcode, String owner, String name, String descriptor) {
        mv.visitFieldInsn(opcode, owner, name, descriptor);
        mv.visitInsn(isWide(descriptor) ? POP2 : POP);
    }
    /** From `object value` to `object value object`. */
    private void bringObjectUp(boolean isWide) {
        mv.visitInsn(isWide ? DUP2_X1 : DUP_X1);
        mv.visitInsn(isWide ? POP2 : POP);
        mv.visitInsn(isWide ? DUP_X2 : DUP_X1);
    }

    // ---- arrays and monitors

    @Override
    public void visitInsn(int opcode) {
        caught();
        boolean logsArrays = !isLight && Options.arrays != Options.Grain.OFF && !(opcode == BASTORE && coverage.isStore());
        if (logsArrays && opcode >= IALOAD && opcode <= SALOAD) {
            mv.visitInsn(DUP2);
            element("readElement", opcode);
        } else if (logsArrays && opcode == AASTORE) replace(ACCESSES, "storeElement", "([" + OBJECT + "I" + OBJECT + "I)V");
        else if (logsArrays && opcode >= IASTORE && opcode <= SASTORE) {
            boolean isWide = opcode == LASTORE || opcode == DASTORE;
            mv.visitInsn(isWide ? DUP2_X2 : DUP_X2);
            mv.visitInsn(isWide ? POP2 : POP);
            mv.visitInsn(isWide ? DUP2_X2 : DUP2_X1);
            element("writeElement", opcode);
        } else if (opcode == MONITORENTER) {
            call(BLOCKS, "entering", "()V");
            mv.visitInsn(DUP);
            super.visitInsn(opcode);
            monitor("entered");
        } else if (opcode == MONITOREXIT) {
            mv.visitInsn(DUP);
            monitor("leaving");
            super.visitInsn(opcode);
        } else super.visitInsn(opcode);
    }
    /** The array and the index stand above what the instruction takes. */
    private void element(String hook, int opcode) {
        pushSite();
        call(ACCESSES, hook, "(" + OBJECT + "II)V");
        super.visitInsn(opcode);
        call(ACCESSES, "done", "()V");
    }
    private void monitor(String hook) {
        pushSite();
        call(BLOCKS, hook, "(" + OBJECT + "I)V");
    }

    @Override
    public void visitLdcInsn(Object value) {
        caught();
        coverage.constant(value);
        super.visitLdcInsn(value);
    }

    // ---- calls

    @Override
    public void visitMethodInsn(int opcode, String owner, String name, String descriptor, boolean isInterface) {
        caught();
        coverage.called(name);
        if (opcode == INVOKESTATIC && owner.equals("java/lang/System") && name.equals("arraycopy")) {
            replace(ACCESSES, "copy", descriptor.replace(")", "I)"));
            return;
        }
        if (owner.startsWith("[") && name.equals("clone") && !isOfEnum(owner)) {
            replace(ACCESSES, "copy", "(" + OBJECT + "I)" + OBJECT);
            return;
        }
        Stub stub = of.takesStubs() ? of.stubs.round(opcode, owner, name, descriptor, isInterface) : null;
        if (stub != null) {
            super.visitLdcInsn(of.site(line));
            super.visitMethodInsn(INVOKESTATIC, of.name, stub.name, stub.descriptor, of.isInterface);
            return;
        }
        // The method may be synchronized, and then it is too late within.
        if (Options.covers(owner) && !name.equals("<init>")) stir();
        super.visitMethodInsn(opcode, owner, name, descriptor, isInterface);
        if (name.equals("clone") && descriptor.equals("()" + OBJECT) && !Options.covers(owner)) {
            mv.visitInsn(DUP);
            call("aerodrome/names/Numbers", "cloned", "(" + OBJECT + ")V");
        }
    }
    /** Whether this is the method that the compiler makes to give an enum's constants, which nothing changes. */
    private boolean isOfEnum(String array) { return isStatic && label.endsWith(".values") && array.equals("[L" + of.name + ";"); }

    private void replace(String owner, String hook, String descriptor) {
        super.visitLdcInsn(of.site(line));
        super.visitMethodInsn(INVOKESTATIC, owner, hook, descriptor, false);
    }

    /** Not one of a lambda that can be serialized: by the name of its method it is found again. */
    private static boolean isPlain(Handle maker) {
        return maker.getOwner().equals("java/lang/invoke/LambdaMetafactory") && maker.getName().equals("metafactory");
    }

    /** A reference to a method whose calls are replaced is one to what these are replaced by. */
    @Override
    public void visitInvokeDynamicInsn(String name, String descriptor, Handle maker, Object... arguments) {
        caught();
        Object[] led = arguments;
        if (isPlain(maker) && of.takesStubs()) {
            Handle to = (Handle) arguments[1];
            int opcode = to.getTag() == H_INVOKEVIRTUAL ? INVOKEVIRTUAL : to.getTag() == H_INVOKEINTERFACE ? INVOKEINTERFACE : 0;
            Stub stub = opcode == 0 ? null : of.stubs.round(opcode, to.getOwner(), to.getName(), to.getDesc(), to.isInterface());
            Type[] taken = Type.getArgumentTypes(descriptor);
            Handle from = stub == null ? null : of.stubs.from(stub, of.site(line), taken.length > 0 ? taken[0] : null);
            if (from != null) {
                led = arguments.clone();
                led[1] = from;
            }
        }
        super.visitInvokeDynamicInsn(name, descriptor, maker, led);
    }
}
