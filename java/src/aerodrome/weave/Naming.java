package aerodrome.weave;

import static org.objectweb.asm.Opcodes.*;

import org.objectweb.asm.MethodVisitor;
import org.objectweb.asm.Type;

/** Stubs round calls that make an updater or a handle of a field, which gets the field's name. */
final class Naming {
    private Naming() { }

    /** Whether such a method makes one. */
    static boolean isMade(String owner, String method) {
        if (owner.startsWith("java/util/concurrent/atomic/")) return method.equals("newUpdater");
        boolean finds = method.equals("findVarHandle") || method.equals("findStaticVarHandle") || method.equals(OF_FIELD);
        if (finds) return owner.equals("java/lang/invoke/MethodHandles$Lookup");
        return isCopy(method) && owner.equals("java/lang/invoke/VarHandle");
    }
    private static final String OF_FIELD = "unreflectVarHandle";
    /** A handle of the same field. */
    private static boolean isCopy(String method) {
        return method.equals("withInvokeExactBehavior") || method.equals("withInvokeBehavior");
    }

    static void write(MethodVisitor code, Stub stub) {
        int name = writeCall(code, stub);
        if (stub.call.name.equals(OF_FIELD)) {
            code.visitVarInsn(ALOAD, stub.firstArgument());
            code.visitMethodInsn(INVOKESTATIC, HANDLES, "named", "(Ljava/lang/Object;Ljava/lang/reflect/Field;)Ljava/lang/Object;", false);
        } else if (isCopy(stub.call.name)) {
            code.visitVarInsn(ALOAD, 0);
            code.visitMethodInsn(INVOKESTATIC, HANDLES, "named", "(Ljava/lang/Object;Ljava/lang/Object;)Ljava/lang/Object;", false);
        } else writeNamed(code, stub, name);
        code.visitTypeInsn(CHECKCAST, stub.call.result().getInternalName());
        code.visitInsn(ARETURN);
    }
    private static final String HANDLES = "aerodrome/hooks/Handles";

    /** Returns which variable is a string. */
    private static int writeCall(MethodVisitor code, Stub stub) {
        int at = 0, name = 0;
        for (Type one : Type.getArgumentTypes(stub.descriptor)) {
            if (at < stub.site()) code.visitVarInsn(one.getOpcode(ILOAD), at);
            if (one.getDescriptor().equals("Ljava/lang/String;")) name = at;
            at += one.getSize();
        }
        stub.call.write(code);
        return name;
    }

    /** The class is the first argument of each, and the name is the string. */
    private static void writeNamed(MethodVisitor code, Stub stub, int name) {
        code.visitVarInsn(ALOAD, stub.firstArgument());
        code.visitVarInsn(ALOAD, name);
        code.visitInsn(stub.call.name.equals("findStaticVarHandle") ? ICONST_1 : ICONST_0);
        code.visitMethodInsn(INVOKESTATIC, HANDLES, "named",
                "(Ljava/lang/Object;Ljava/lang/Class;Ljava/lang/String;Z)Ljava/lang/Object;", false);
    }
}
