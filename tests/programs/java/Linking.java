import java.io.IOException;
import java.io.InputStream;
import java.lang.invoke.MethodHandles;
import java.lang.invoke.VarHandle;
import java.util.function.Consumer;

/**
 * The first access by a handle at its place, while another thread reads. The system links the access first, and for that it loads the
 * class of the field by the loader of the class that makes the access: a slow one, which waits for the read.
 */
public class Linking {
    public static class Value { }
    public static class Holder {
        public static final VarHandle HANDLE;
        static {
            try {
                HANDLE = MethodHandles.lookup().findVarHandle(Holder.class, "value", Value.class);
            } catch (ReflectiveOperationException wrong) {
                throw new AssertionError(wrong);
            }
        }
        public static final Value MADE = new Value();

        volatile Value value;
    }
    /** What the slow loader defines. */
    public static class Writer implements Consumer<Object> {
        @Override public void accept(Object holder) { Holder.HANDLE.setVolatile((Holder) holder, Holder.MADE); }
    }

    private static class Slow extends ClassLoader {
        Slow() { super(Linking.class.getClassLoader()); }

        @Override protected Class<?> loadClass(String name, boolean resolve) throws ClassNotFoundException {
            if (name.equals("Linking$Value")) {
                Meet.open();
                if (!Meet.untilDone()) System.out.println("the reader is kept waiting");
            }
            return name.equals("Linking$Writer") ? define(name) : super.loadClass(name, resolve);
        }
        private Class<?> define(String name) throws ClassNotFoundException {
            try (InputStream file = getParent().getResourceAsStream(name + ".class")) {
                byte[] bytes = file.readAllBytes();
                return defineClass(name, bytes, 0, bytes.length);
            } catch (IOException wrong) {
                throw new ClassNotFoundException(name, wrong);
            }
        }
    }

    @SuppressWarnings("unchecked")
    public static void main(String[] words) throws Exception {
        Holder holder = new Holder();
        Consumer<Object> writer = (Consumer<Object>) new Slow().loadClass("Linking$Writer").getConstructor().newInstance();
        Thread other = new Thread(() -> writer.accept(holder));
        other.start();
        while (!Meet.isOpen() && other.isAlive()) Thread.yield();
        System.out.println(holder.value == null ? "nothing yet" : "written");
        Meet.done();
        other.join();
        System.out.println(holder.value == null ? "nothing yet" : "written");
    }
}
