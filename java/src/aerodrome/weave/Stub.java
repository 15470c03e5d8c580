package aerodrome.weave;

import org.objectweb.asm.Type;

/** A small method round a call. It has the call's receiver, its arguments and the site. */
final class Stub {
    final Invocation call;
    final String name, descriptor;
    /** How the call is logged, as Kind.code has it; 0 if it is one that makes an updater or a handle. */
    final int code;
    /** That of a method of VarHandle has a form, else -1. */
    final int form;

    /** @param of the class that makes the call */
    Stub(Invocation call, String name, String of, int code, int form) {
        this.call = call;
        this.name = name;
        this.code = code;
        this.form = form;
        String receiver = call.isStatic() ? "" : "L" + call.receiver(of) + ";";
        String arguments = call.descriptor.substring(1, call.descriptor.indexOf(')'));
        descriptor = "(" + receiver + arguments + "I)" + call.result().getDescriptor();
    }

    /** The variable of the call's first argument. */
    int firstArgument() { return call.isStatic() ? 0 : 1; }
    /** The variable of the site, which is the last argument. */
    int site() {
        int at = firstArgument();
        for (Type one : call.arguments()) at += one.getSize();
        return at;
    }
}
