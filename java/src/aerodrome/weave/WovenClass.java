package aerodrome.weave;

import static org.objectweb.asm.Opcodes.*;

import aerodrome.Options;
import aerodrome.hooks.Hidden;
import aerodrome.names.Fields;
import aerodrome.names.Site;
import aerodrome.names.Text;
import java.lang.ref.WeakReference;
import java.util.Arrays;
import java.util.Set;
import org.objectweb.asm.ClassVisitor;
import org.objectweb.asm.FieldVisitor;
import org.objectweb.asm.MethodVisitor;
import org.objectweb.asm.commons.JSRInlinerAdapter;

/** A class as it is instrumented. The topmost one of those that are gets the number of its objects. */
final class WovenClass extends ClassVisitor {
    /** The versions of class files from which on there are frames, constants that are classes, and code in interfaces. */
    static final int FRAMES = V1_6, CLASS_CONSTANTS = V1_5, CODE_IN_INTERFACES = V1_8;
    private static final String NUMBER = Hidden.PREFIX + "number", OWNER = Hidden.PREFIX + "owner";
    private static final String NUMBERED = "aerodrome/names/Numbered";
    private static final String OBJECT = "Ljava/lang/Object;";
    private static final int MOST_SOURCE = 200;
    private static final Set<String> FORKED = Set.of("java/util/concurrent/RecursiveTask", "java/util/concurrent/RecursiveAction",
            "java/util/concurrent/CountedCompleter");

    private final WeakReference<ClassLoader> loader;
    private final Set<String> light;
    private final Outline outline;
    final Stubs stubs;
    String name;
    int version;
    boolean isInterface;
    private String source;
    /** Whether it gets the number, and whether a class above it, which isn't instrumented, may clone its objects with it. */
    private boolean isNumbered, mayBeCloned;
    /** Whether its methods may override others. */
    private boolean isDerived;

    /**
     * @param light the methods whose accesses are left out
     * @param outline what is to be known of the class before
     * @param shape what the class has got already, if it is redefined, else null
     */
    WovenClass(ClassVisitor to, ClassLoader loader, Table table, Set<String> light, Outline outline, Stubs.Shape shape) {
        super(ASM9, to);
        this.loader = new WeakReference<>(loader);
        this.light = light;
        this.outline = outline;
        stubs = new Stubs(this, to, table, shape);
    }

    @Override
    public void visit(int version, int access, String name, String signature, String above, String[] interfaces) {
        this.name = name;
        this.version = version & 0xffff;
        source = Text.withoutPackage(name);
        isInterface = (access & ACC_INTERFACE) != 0;
        String[] all = interfaces == null ? new String[0] : interfaces;
        Fields.note(loader(), name, above, all);
        isNumbered = (access & (ACC_INTERFACE | ACC_MODULE)) == 0 && above != null && !Options.covers(above);
        mayBeCloned = isNumbered && !above.equals("java/lang/Object");
        isDerived = above != null && !above.equals("java/lang/Object");
        if (isNumbered) {
            all = Arrays.copyOf(all, all.length + 1);
            all[all.length - 1] = NUMBERED;
        }
        super.visit(version, access, name, signature, above, all);
    }

    @Override
    public void visitSource(String source, String debug) {
        if (source != null) this.source = source;
        super.visitSource(source, debug);
    }

    @Override
    public FieldVisitor visitField(int access, String name, String descriptor, String signature, Object value) {
        Fields.noteField(loader(), this.name, name, access);
        return super.visitField(access, name, descriptor, signature, value);
    }

    @Override
    public MethodVisitor visitMethod(int access, String method, String descriptor, String signature, String[] thrown) {
        MethodVisitor to = super.visitMethod(access, method, descriptor, signature, thrown);
        if (isDerived && (access & (ACC_ABSTRACT | ACC_STATIC)) == 0) Fields.noteMethod(loader(), name, method + descriptor);
        if (to == null || (access & (ACC_ABSTRACT | ACC_NATIVE)) != 0 || Coverage.isOwn(method)) return to;
        MethodVisitor woven = new WovenMethod(to, access, method, descriptor, this);
        return version < FRAMES ? new JSRInlinerAdapter(woven, access, method, descriptor, signature, thrown) : woven;
    }

    @Override
    public void visitEnd() {
        if (isNumbered) addNumber();
        stubs.write();
        super.visitEnd();
    }

    private void addNumber() {
        super.visitField(ACC_PRIVATE | ACC_TRANSIENT | ACC_SYNTHETIC, NUMBER, "J", null, null).visitEnd();
        if (mayBeCloned) super.visitField(ACC_PRIVATE | ACC_TRANSIENT | ACC_SYNTHETIC, OWNER, OBJECT, null, null).visitEnd();
        MethodVisitor get = super.visitMethod(ACC_PUBLIC | ACC_SYNTHETIC, NUMBER, "()J", null, null);
        get.visitCode();
        get.visitVarInsn(ALOAD, 0);
        get.visitFieldInsn(GETFIELD, name, NUMBER, "J");
        if (mayBeCloned) {
            get.visitVarInsn(ALOAD, 0);
            get.visitVarInsn(ALOAD, 0);
            get.visitFieldInsn(GETFIELD, name, OWNER, OBJECT);
            get.visitMethodInsn(INVOKESTATIC, "aerodrome/names/Numbers", "own", "(J" + OBJECT + OBJECT + ")J", false);
        }
        get.visitInsn(LRETURN);
        get.visitMaxs(0, 0);
        get.visitEnd();
        MethodVisitor set = super.visitMethod(ACC_PUBLIC | ACC_SYNTHETIC, NUMBER, "(J)V", null, null);
        set.visitCode();
        set.visitVarInsn(ALOAD, 0);
        set.visitVarInsn(LLOAD, 1);
        set.visitFieldInsn(PUTFIELD, name, NUMBER, "J");
        if (mayBeCloned) {
            set.visitVarInsn(ALOAD, 0);
            set.visitVarInsn(ALOAD, 0);
            set.visitFieldInsn(PUTFIELD, name, OWNER, OBJECT);
        }
        set.visitInsn(RETURN);
        set.visitMaxs(0, 0);
        set.visitEnd();
    }

    // ---- for its methods

    ClassLoader loader() { return loader.get(); }
    boolean isLight(String method, String descriptor) { return light.contains(method + descriptor); }
    boolean isCatching(String method, String descriptor) { return outline.catching.contains(method + descriptor); }
    boolean isAnnotated(String method, String descriptor) { return outline.annotated.contains(method + descriptor); }
    /** Whether a fork-join pool runs the method, as other pools run `run` and `call`. */
    boolean isForked(String method, String descriptor) {
        if (!method.equals("compute") || !descriptor.startsWith("()")) return false;
        String base = Bases.base(loader(), name);
        return base != null && FORKED.contains(base);
    }
    int firstLine(String method, String descriptor) { return outline.lines.getOrDefault(method + descriptor, 0); }

    /** Whether methods may be added that have code. */
    boolean takesStubs() { return !isInterface || version >= CODE_IN_INTERFACES; }

    /** How a line of the log ends that tells of this line of the source. */
    byte[] place(int line) {
        if (!Options.places) return Text.bytes("\n");
        return Text.bytes("|" + Text.clean(source, MOST_SOURCE) + (line > 0 ? ":" + line : "") + "\n");
    }
    int site(int line) { return Site.place(place(line)); }
    int site(int line, char operation, String owner, String field) {
        return Site.field(place(line), operation, loader, owner, field);
    }
}
