package aerodrome.weave;

import static org.objectweb.asm.Opcodes.*;

import aerodrome.log.Log;
import java.lang.instrument.ClassFileTransformer;
import java.security.ProtectionDomain;
import java.util.ArrayList;
import java.util.LinkedHashSet;
import java.util.List;
import java.util.Set;
import org.objectweb.asm.ClassReader;
import org.objectweb.asm.ClassVisitor;
import org.objectweb.asm.ClassWriter;
import org.objectweb.asm.Label;
import org.objectweb.asm.MethodVisitor;
import org.objectweb.asm.Type;
import org.objectweb.asm.commons.AdviceAdapter;

/**
 * Has a few methods of the JDK call hooks, by the second part of the table. Their classes are loaded already, so they are
 * transformed anew, and only code is put into their methods.
 */
public final class JdkWeaver implements ClassFileTransformer {
    private final List<JdkHook> hooks;

    public JdkWeaver(Table table) { hooks = table.hooks; }

    public Class<?>[] classes() throws ClassNotFoundException {
        Set<Class<?>> classes = new LinkedHashSet<>();
        for (JdkHook one : hooks)
            try {
                classes.add(Class.forName(one.owner.replace('/', '.'), false, null));
            } catch (ClassNotFoundException isNot) {
                if (!one.isAlso) throw isNot;
            }
        return classes.toArray(new Class<?>[0]);
    }

    public void sayWhatIsMissing() {
        for (int at = 0; at < hooks.size(); at++) {
            JdkHook one = hooks.get(at), next = at + 1 < hooks.size() ? hooks.get(at + 1) : one;
            if (!one.isFound && !one.isElse && !one.isAlso && !(next.isElse && next.isFound))
                Log.say("this JDK has no " + one.owner.replace('/', '.') + "." + one.method + ": what it does isn't logged");
        }
    }

    @Override
    public byte[] transform(ClassLoader loader, String name, Class<?> redefined, ProtectionDomain domain, byte[] bytes) {
        if (redefined == null || loader != null || !isHooked(name)) return null;
        try {
            ClassReader reader = ClassFile.reader(bytes);
            ClassWriter writer = new ClassWriter(ClassWriter.COMPUTE_MAXS);
            reader.accept(new ClassVisitor(ASM9, writer) {
                @Override
                public MethodVisitor visitMethod(int access, String method, String descriptor, String signature, String[] thrown) {
                    MethodVisitor to = super.visitMethod(access, method, descriptor, signature, thrown);
                    List<JdkHook> here = at(name, method, descriptor);
                    return here.isEmpty() ? to : new Hooked(to, access, method, descriptor, here);
                }
            }, ClassReader.EXPAND_FRAMES);
            return ClassFile.made(writer.toByteArray(), bytes);
        } catch (Throwable wrong) {
            Log.say(name.replace('/', '.') + " has no hooks: " + wrong);
            return null;
        }
    }
    private boolean isHooked(String owner) {
        for (JdkHook one : hooks) if (one.owner.equals(owner)) return true;
        return false;
    }
    private List<JdkHook> at(String owner, String method, String descriptor) {
        List<JdkHook> here = new ArrayList<>();
        for (JdkHook one : hooks) if (one.isAt(owner, method, descriptor)) here.add(one);
        return here;
    }

    private static final class Hooked extends AdviceAdapter {
        /** What a hook may be given, by its variable. */
        private static final List<String> GIVEN = List.of("this", "first", "second");

        private final List<JdkHook> hooks;
        private final String result;
        private final Label start = new Label();

        Hooked(MethodVisitor to, int access, String method, String descriptor, List<JdkHook> hooks) {
            super(ASM9, to, access, method, descriptor);
            this.hooks = hooks;
            result = Type.getReturnType(descriptor).getDescriptor();
            for (JdkHook one : hooks) one.isFound |= !one.isWithin();
        }

        /** Calls the hooks that stand there. They are given `this`, arguments, or nothing. */
        private void call(JdkHook.Where where) {
            for (JdkHook one : hooks) {
                if (one.where == where) call(one, "", "V");
            }
        }
        /** The hook gets what is on the stack first, by its types, and gives a result of this type. */
        private void call(JdkHook hook, String onStack, String gives) {
            for (String one : hook.given) mv.visitVarInsn(ALOAD, GIVEN.indexOf(one));
            String type = hook.hookOwner.endsWith("Threads") ? "Ljava/lang/Thread;" : "Ljava/lang/Object;";
            String descriptor = "(" + onStack + type.repeat(hook.given.size()) + ")" + gives;
            mv.visitMethodInsn(INVOKESTATIC, hook.hookOwner, hook.hookName, descriptor, false);
        }

        @Override
        protected void onMethodEnter() {
            call(JdkHook.Where.ENTRY);
            mv.visitLabel(start);
        }

        @Override
        protected void onMethodExit(int opcode) {
            if (opcode == ATHROW) return;
            call(JdkHook.Where.EXIT);
            call(JdkHook.Where.ALWAYS);
            for (JdkHook one : hooks)
                if (one.where == JdkHook.Where.RESULT) call(one, result, result);
        }

        /** Before a task is run: the task. */
        @Override
        public void visitMethodInsn(int opcode, String owner, String name, String descriptor, boolean isInterface) {
            for (JdkHook one : hooks) {
                if (one.where != JdkHook.Where.RUN || !owner.equals("java/lang/Runnable") || !name.equals("run")) continue;
                one.isFound = true;
                mv.visitInsn(DUP);
                call(one, "Ljava/lang/Object;", "V");
            }
            boolean isSwap = owner.equals("java/lang/invoke/VarHandle") && name.equals("compareAndSet");
            if (isSwap) callFound(JdkHook.Where.SWAP);
            super.visitMethodInsn(opcode, owner, name, descriptor, isInterface);
            for (JdkHook one : hooks) {
                if (!isSwap || one.where != JdkHook.Where.SWAP) continue;
                mv.visitInsn(DUP);
                mv.visitMethodInsn(INVOKESTATIC, one.hookOwner, one.hookBehind, "(Z)V", false);
            }
        }
        private void callFound(JdkHook.Where where) {
            for (JdkHook one : hooks) one.isFound |= one.where == where;
            call(where);
        }

        /** The state of what may be complete, or of a barrier. */
        @Override
        public void visitFieldInsn(int opcode, String owner, String name, String descriptor) {
            boolean isLook = opcode == GETFIELD && (name.equals("result") || name.equals("generation"));
            if (isLook) callFound(JdkHook.Where.LOOK);
            for (JdkHook one : hooks) if (isLook && one.where == JdkHook.Where.FOUND) mv.visitInsn(DUP);
            super.visitFieldInsn(opcode, owner, name, descriptor);
            for (JdkHook one : hooks) {
                if (!isLook || one.where != JdkHook.Where.FOUND) continue;
                one.isFound = true;
                mv.visitInsn(DUP_X1);
                call(one, "Ljava/lang/Object;Ljava/lang/Object;", "V");
            }
            for (JdkHook one : hooks)
                if (isLook && one.where == JdkHook.Where.LOOK)
                    mv.visitMethodInsn(INVOKESTATIC, one.hookOwner, one.hookBehind, "()V", false);
        }

        @Override
        public void visitMaxs(int stack, int locals) {
            for (JdkHook one : hooks) {
                if (one.where != JdkHook.Where.ALWAYS) continue;
                Label end = new Label();
                mv.visitTryCatchBlock(start, end, end, null);
                mv.visitLabel(end);
                // Of these methods `this` is never assigned to.
                mv.visitFrame(F_NEW, 1, new Object[] {one.owner}, 1, new Object[] {"java/lang/Throwable"});
                call(JdkHook.Where.ALWAYS);
                mv.visitInsn(ATHROW);
            }
            super.visitMaxs(stack, locals);
        }
    }
}
