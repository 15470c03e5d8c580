package aerodrome.weave;

import static org.objectweb.asm.Opcodes.ASM9;
import static org.objectweb.asm.Opcodes.V11;

import java.io.IOException;
import java.io.InputStream;
import java.util.ArrayList;
import java.util.List;
import org.objectweb.asm.ClassReader;
import org.objectweb.asm.ClassVisitor;

/**
 * Class files of any version. ASM refuses those of versions that it doesn't know, though for long nothing was added to them that
 * it would have to know. So it is shown an older version, and what it makes of a class gets the class's own one.
 */
public final class ClassFile {
    /** Where a class file has its version, and how many bytes these are. */
    private static final int VERSION = 4, BYTES = 4;

    private ClassFile() { }

    static ClassReader reader(byte[] bytes) {
        if (version(bytes) <= V11) return new ClassReader(bytes);
        byte[] older = bytes.clone();
        older[VERSION] = older[VERSION + 1] = older[VERSION + 2] = 0;
        older[VERSION + 3] = V11;
        return new ClassReader(older);
    }

    /** What was made of a class, with the class's version. */
    static byte[] made(byte[] made, byte[] from) {
        System.arraycopy(from, VERSION, made, VERSION, BYTES);
        return made;
    }

    static int version(byte[] bytes) { return (bytes[VERSION + 2] & 255) << 8 | bytes[VERSION + 3] & 255; }

    /**
     * Returns the class that another one extends, which isn't loaded, and then its interfaces, by the file that the loader has for it;
     * an empty list if there is no such file.
     */
    static List<String> above(ClassLoader loader, String name) {
        String file = name + ".class";
        try (InputStream bytes = loader == null ? ClassLoader.getSystemResourceAsStream(file) : loader.getResourceAsStream(file)) {
            if (bytes == null) return List.of();
            ClassReader of = reader(bytes.readAllBytes());
            List<String> above = new ArrayList<>();
            above.add(of.getSuperName());
            above.addAll(List.of(of.getInterfaces()));
            return above;
        } catch (IOException | RuntimeException unreadable) {
            return List.of();
        }
    }

    /** The version of the JDK's own class files where they can't be read, else 0. */
    public static int unreadable() throws IOException {
        byte[] bytes;
        try (InputStream file = Thread.class.getResourceAsStream("Thread.class")) {
            bytes = file.readAllBytes();
        }
        try {
            reader(bytes).accept(new ClassVisitor(ASM9) { }, 0);
            return 0;
        } catch (RuntimeException wrong) {
            return version(bytes);
        }
    }
}
