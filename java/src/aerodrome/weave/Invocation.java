package aerodrome.weave;

import static org.objectweb.asm.Opcodes.INVOKESPECIAL;
import static org.objectweb.asm.Opcodes.INVOKESTATIC;

import org.objectweb.asm.MethodVisitor;
import org.objectweb.asm.Type;

/** A call of a method, as code has it. */
final class Invocation {
    private final int opcode;
    final String owner, name, descriptor;
    private final boolean isInterface;

    Invocation(int opcode, String owner, String name, String descriptor, boolean isInterface) {
        this.opcode = opcode;
        this.owner = owner;
        this.name = name;
        this.descriptor = descriptor;
        this.isInterface = isInterface;
    }

    boolean isSpecial() { return opcode == INVOKESPECIAL; }
    boolean isStatic() { return opcode == INVOKESTATIC; }
    /** The class whose objects may make the call from within the given class: a call of a method of the class above is its own. */
    String receiver(String within) { return opcode == INVOKESPECIAL ? within : owner; }
    Type[] arguments() { return Type.getArgumentTypes(descriptor); }
    Type result() { return Type.getReturnType(descriptor); }
    /** By which calls of the same method are the same. */
    String key() { return opcode + " " + owner + "." + name + descriptor; }

    void write(MethodVisitor code) { code.visitMethodInsn(opcode, owner, name, descriptor, isInterface); }
}
