import static org.objectweb.asm.Opcodes.*;

import java.io.IOException;
import java.nio.file.Files;
import java.nio.file.Paths;
import org.objectweb.asm.ClassWriter;
import org.objectweb.asm.Label;
import org.objectweb.asm.MethodVisitor;

/**
 * Writes a class whose calls of methods of Object name the class of the receiver, as some compilers do; javac names Object. The class,
 * Owned, makes each call on a line of its own, from line 1, within a block that holds the receiver's monitor.
 */
public class Owners {
    private static final String[] RECEIVERS = {"java/util/concurrent/atomic/AtomicInteger",
            "java/util/concurrent/atomic/AtomicStampedReference"};
    private static final String[][] CALLS = {{"wait", "(J)V"}, {"hashCode", "()I"}, {"equals", "(Ljava/lang/Object;)Z"},
            {"getClass", "()Ljava/lang/Class;"}, {"notify", "()V"}, {"notifyAll", "()V"}, {"toString", "()Ljava/lang/String;"}};

    public static void main(String[] to) throws IOException {
        ClassWriter made = new ClassWriter(ClassWriter.COMPUTE_FRAMES | ClassWriter.COMPUTE_MAXS);
        made.visit(V11, ACC_PUBLIC, "Owned", null, "java/lang/Object", null);
        made.visitSource("Owned.java", null);
        MethodVisitor code = made.visitMethod(ACC_PUBLIC | ACC_STATIC, "main", "([Ljava/lang/String;)V", null, null);
        code.visitCode();
        int line = 0;
        for (String receiver : RECEIVERS) {
            code.visitTypeInsn(NEW, receiver);
            code.visitInsn(DUP);
            boolean isStamped = receiver.endsWith("Reference");
            if (isStamped) {
                code.visitInsn(ACONST_NULL);
                code.visitInsn(ICONST_0);
            }
            code.visitMethodInsn(INVOKESPECIAL, receiver, "<init>", isStamped ? "(Ljava/lang/Object;I)V" : "()V", false);
            code.visitVarInsn(ASTORE, 1);
            line = at(code, line);
            code.visitVarInsn(ALOAD, 1);
            code.visitInsn(MONITORENTER);
            for (String[] call : CALLS) {
                line = at(code, line);
                code.visitVarInsn(ALOAD, 1);
                if (call[1].startsWith("(J")) code.visitLdcInsn(1L);
                if (call[1].startsWith("(L")) code.visitInsn(ACONST_NULL);
                code.visitMethodInsn(INVOKEVIRTUAL, receiver, call[0], call[1], false);
                if (!call[1].endsWith("V")) code.visitInsn(POP);
            }
            line = at(code, line);
            code.visitVarInsn(ALOAD, 1);
            code.visitInsn(MONITOREXIT);
        }
        code.visitInsn(RETURN);
        code.visitMaxs(0, 0);
        code.visitEnd();
        made.visitEnd();
        Files.write(Paths.get(to[0], "Owned.class"), made.toByteArray());
    }
    private static int at(MethodVisitor code, int line) {
        Label here = new Label();
        code.visitLabel(here);
        code.visitLineNumber(line + 1, here);
        return line + 1;
    }
}
