package aerodrome.weave;

import static org.objectweb.asm.Opcodes.*;

import aerodrome.hooks.Handles;
import aerodrome.hooks.Hidden;
import java.util.ArrayList;
import java.util.HashMap;
import java.util.List;
import java.util.Map;
import org.objectweb.asm.ClassVisitor;
import org.objectweb.asm.Handle;
import org.objectweb.asm.MethodVisitor;
import org.objectweb.asm.Type;

/** The stubs of a class, each in the place of the calls of one method. As methods of the class they may make any call it may. */
final class Stubs {
    private final WovenClass of;
    private final ClassVisitor to;
    private final Table table;
    private final Map<String, Stub> byCall = new HashMap<>();
    private final List<Stub> all = new ArrayList<>();

    /**
     * A stub of a stub, for what refers to a method: it has no site. If the reference has a receiver, as `set::containsAll` has, it is of
     * that type exactly, also where a class above has the method.
     */
    private static final class Reference {
        final Stub stub;
        final String name, descriptor;
        final int site;

        Reference(Stub stub, String name, int site, String descriptor) {
            this.stub = stub;
            this.name = name;
            this.site = site;
            this.descriptor = descriptor;
        }

        /** @param receiver null: it has none */
        static String descriptor(Stub stub, Type receiver) {
            String plain = stub.descriptor.replace("I)", ")");
            if (receiver == null) return plain;
            return "(" + receiver.getDescriptor() + plain.substring(1 + Type.getArgumentTypes(plain)[0].getDescriptor().length());
        }
    }
    private final List<Reference> references = new ArrayList<>();

    /** What a class has got: one that is redefined must have the same methods, no more and no fewer. */
    static final class Shape {
        private final List<Stub> stubs;
        private final List<Reference> references;

        private Shape(List<Stub> stubs, List<Reference> references) {
            this.stubs = stubs;
            this.references = references;
        }
    }
    private final boolean isFixed;
    /** Of a shape: the references that nothing in the class has yet. */
    private final List<Reference> free = new ArrayList<>();
    /** Whether a call has no stub, as the shape has none. */
    private boolean isShort;

    /** @param shape that of the class, if it is redefined, else null */
    Stubs(WovenClass of, ClassVisitor to, Table table, Shape shape) {
        this.of = of;
        this.to = to;
        this.table = table;
        isFixed = shape != null;
        if (!isFixed) return;
        all.addAll(shape.stubs);
        for (Stub one : all) byCall.put(one.call.key(), one);
        free.addAll(shape.references);
    }

    Shape shape() { return new Shape(all, references); }
    boolean isShort() { return isShort; }

    /** The stub round such a call, or null where it isn't logged. */
    Stub round(int opcode, String owner, String name, String descriptor, boolean isInterface) {
        if (owner.startsWith("[")) return null;
        int code = table.code(of.loader(), opcode, owner, name, descriptor);
        if (code == 0 && !Naming.isMade(owner, name)) return null;
        Invocation call = new Invocation(opcode, owner, name, descriptor, isInterface);
        Stub known = byCall.get(call.key());
        if (known != null || isFixed) {
            isShort |= known == null;
            return known;
        }
        boolean isHandle = code != 0 && owner.equals("java/lang/invoke/VarHandle");
        int form = isHandle ? Handles.form(code, name) : -1;
        Stub made = new Stub(call, Hidden.PREFIX + all.size(), of.name, code, form);
        byCall.put(call.key(), made);
        all.add(made);
        return made;
    }

    /** What a reference to the stub's method is led to, from the site, or null where the shape has nothing for it. */
    Handle from(Stub stub, int site, Type receiver) {
        String descriptor = Reference.descriptor(stub, receiver), name = Hidden.PREFIX + "from" + references.size();
        Reference made = isFixed ? taken(stub, site, descriptor) : new Reference(stub, name, site, descriptor);
        if (made == null) return null;
        references.add(made);
        return new Handle(H_INVOKESTATIC, of.name, made.name, made.descriptor, of.isInterface);
    }

    private Reference taken(Stub stub, int site, String descriptor) {
        for (Reference one : free) {
            if (one.stub != stub || !one.descriptor.equals(descriptor)) continue;
            free.remove(one);
            return new Reference(stub, one.name, site, descriptor);
        }
        isShort = true;
        return null;
    }

    /** Adds them to the class. */
    void write() {
        for (Stub one : all) {
            MethodVisitor code = begin(one.name, one.descriptor);
            if (one.code == 0) Naming.write(code, one);
            else new StubWriter(code, one, of.version >= WovenClass.FRAMES).write();
            end(code);
        }
        references.addAll(free);
        for (Reference one : references) write(one);
    }
    private MethodVisitor begin(String name, String descriptor) {
        MethodVisitor code = to.visitMethod(ACC_PRIVATE | ACC_STATIC | ACC_SYNTHETIC, name, descriptor, null, null);
        code.visitCode();
        return code;
    }
    private static void end(MethodVisitor code) {
        code.visitMaxs(0, 0);
        code.visitEnd();
    }

    private void write(Reference reference) {
        MethodVisitor code = begin(reference.name, reference.descriptor);
        int at = 0;
        for (Type one : Type.getArgumentTypes(reference.descriptor)) {
            code.visitVarInsn(one.getOpcode(ILOAD), at);
            at += one.getSize();
        }
        code.visitLdcInsn(reference.site);
        code.visitMethodInsn(INVOKESTATIC, of.name, reference.stub.name, reference.stub.descriptor, of.isInterface);
        code.visitInsn(reference.stub.call.result().getOpcode(IRETURN));
        end(code);
    }
}
