package aerodrome.weave;

import aerodrome.Options;
import aerodrome.log.Counted;
import aerodrome.log.Log;
import java.lang.instrument.ClassFileTransformer;
import java.lang.instrument.Instrumentation;
import java.security.ProtectionDomain;
import java.util.HashMap;
import java.util.HashSet;
import java.util.Map;
import java.util.Set;
import java.util.WeakHashMap;
import org.objectweb.asm.ClassReader;
import org.objectweb.asm.ClassWriter;
import org.objectweb.asm.MethodTooLargeException;

/**
 * Instruments the classes of the program when they are loaded. No frames are computed, so no class is loaded for it: the code
 * that is put into a method has no branches, and one handler, whose frame says nothing of the variables. A class that can't be
 * instrumented is left as it is.
 */
public final class Weaver implements ClassFileTransformer {
    private static final ClassLoader PLATFORM = ClassLoader.getPlatformClassLoader();

    private final Instrumentation with;
    private final Table table;
    /** What the classes of each loader have got, which a class that is redefined has to get again. */
    private final Map<ClassLoader, Map<String, Stubs.Shape>> shapes = new WeakHashMap<>();
    private final Module own = Weaver.class.getModule();

    public Weaver(Instrumentation with, Table table) {
        this.with = with;
        this.table = table;
    }

    @Override
    public byte[] transform(Module in, ClassLoader loader, String name, Class<?> redefined, ProtectionDomain domain, byte[] bytes) {
        // The JDK's tools, as javac, are classes of the program's loader.
        if (in != null && in.isNamed() && in.getName().matches("(java|jdk)[.].*")) return null;
        byte[] woven = transform(loader, name, redefined, domain, bytes);
        if (woven != null && in != null && !in.canRead(own))
            with.redefineModule(in, Set.of(own), Map.of(), Map.of(), Set.of(), Map.of());
        return woven;
    }

    @Override
    public byte[] transform(ClassLoader loader, String name, Class<?> redefined, ProtectionDomain domain, byte[] bytes) {
        if (loader == null || loader == PLATFORM || name == null || !Options.covers(name)) return null;
        // Accessors that reflection makes.
        if (loader.getClass().getName().startsWith("jdk.internal.reflect")) return null;
        try {
            Stubs.Shape shape = redefined == null ? null : shape(loader, name);
            return redefined != null && shape == null ? null : weave(loader, name, bytes, shape);
        } catch (Throwable wrong) {
            Log.say(name.replace('/', '.') + " isn't logged: " + wrong);
            return null;
        }
    }

    private Stubs.Shape shape(ClassLoader loader, String name) {
        synchronized (shapes) {
            return shapes.getOrDefault(loader, Map.of()).get(name);
        }
    }
    private void note(ClassLoader loader, String name, Stubs.Shape shape) {
        synchronized (shapes) {
            shapes.computeIfAbsent(loader, one -> new HashMap<>()).put(name, shape);
        }
    }

    /** A method that would be too long has its accesses left out. */
    private byte[] weave(ClassLoader loader, String name, byte[] bytes, Stubs.Shape shape) {
        Set<String> light = new HashSet<>();
        ClassReader reader;
        Outline outline = new Outline();
        try {
            reader = ClassFile.reader(bytes);
            reader.accept(outline, ClassReader.SKIP_FRAMES);
        } catch (RuntimeException wrong) {
            Counted.isNotLogged(name.replace('/', '.'), "ASM can't read this class file version (" + ClassFile.version(bytes) + ")");
            return null;
        }
        for (;;) {
            ClassWriter writer = new ClassWriter(ClassWriter.COMPUTE_MAXS);
            WovenClass woven = new WovenClass(writer, loader, table, light, outline, shape);
            reader.accept(woven, ClassReader.EXPAND_FRAMES);
            try {
                byte[] made = ClassFile.made(writer.toByteArray(), bytes);
                if (shape == null) note(loader, name, woven.stubs.shape());
                if (woven.stubs.isShort()) Log.say(name.replace('/', '.') + " was redefined: calls that are new in it aren't logged");
                return made;
            } catch (MethodTooLargeException wrong) {
                if (!light.add(wrong.getMethodName() + wrong.getDescriptor())) throw wrong;
                Log.say(name.replace('/', '.') + "." + wrong.getMethodName() + " is too long: its accesses aren't logged");
            }
        }
    }
}
