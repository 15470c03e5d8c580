package aerodrome.weave;

import static org.objectweb.asm.Opcodes.ACC_SYNTHETIC;
import static org.objectweb.asm.Opcodes.ASM9;

import java.util.HashMap;
import java.util.HashSet;
import java.util.Map;
import java.util.Set;
import org.objectweb.asm.AnnotationVisitor;
import org.objectweb.asm.ClassVisitor;
import org.objectweb.asm.Label;
import org.objectweb.asm.MethodVisitor;

/** What is to be known of a class before its methods are instrumented. A method is known by its name and descriptor. */
final class Outline extends ClassVisitor {
    /** The lines in which the methods begin. */
    final Map<String, Integer> lines = new HashMap<>();
    /** The methods that catch errors, and those that have an annotation `Atomic`, or whose class has one. */
    final Set<String> catching = new HashSet<>(), annotated = new HashSet<>();
    private boolean isAnnotated;

    Outline() { super(ASM9); }

    /** By its simple name, whatever its package, or the class around it. */
    private static boolean isAtomic(String descriptor) { return descriptor.matches("L(.*[/$])?Atomic;"); }

    @Override
    public AnnotationVisitor visitAnnotation(String descriptor, boolean isVisible) {
        isAnnotated |= isAtomic(descriptor);
        return null;
    }

    /** An annotation of the class isn't one of its constructors and initializers, and what the compiler made has none. */
    @Override
    public MethodVisitor visitMethod(int access, String name, String descriptor, String signature, String[] thrown) {
        String method = name + descriptor;
        boolean mayBeAtomic = (access & ACC_SYNTHETIC) == 0;
        if (isAnnotated && mayBeAtomic && !name.startsWith("<")) annotated.add(method);
        return new MethodVisitor(ASM9) {
            @Override public AnnotationVisitor visitAnnotation(String descriptor, boolean isVisible) {
                if (mayBeAtomic && isAtomic(descriptor)) annotated.add(method);
                return null;
            }
            @Override public void visitLineNumber(int line, Label at) { lines.putIfAbsent(method, line); }
            @Override public void visitTryCatchBlock(Label start, Label end, Label handler, String type) {
                if (WovenMethod.isOfErrors(type)) catching.add(method);
            }
        };
    }
}
