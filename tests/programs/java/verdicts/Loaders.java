import java.io.*;
import java.net.*;
import java.nio.file.*;
// S: parent-last loaders load the class twice; each is used by a thread
public class Loaders {
    public static class W implements Runnable {
        static int n;
        int f;
        public void run() {
            go();
        }
        synchronized void go() {
            n++;
            f++;
            java.util.List<Integer> l = new java.util.ArrayList<>();
            l.add(n);
            System.out.println(getClass().getClassLoader().getClass().getSimpleName() + " " + l + f);
        }
    }
    static class Last extends ClassLoader {
        Last(ClassLoader p) {
            super(p);
        }
        protected Class<?> loadClass(String n, boolean r) throws ClassNotFoundException {
            synchronized (getClassLoadingLock(n)) {
                Class<?> c = findLoadedClass(n);
                if (c == null && n.startsWith("Loaders$W")) {
                    try (InputStream i = getParent().getResourceAsStream(n.replace('.', '/') + ".class")) {
                        byte[] b = i.readAllBytes();
                        c = defineClass(n, b, 0, b.length);
                    } catch (IOException e) {
                        throw new ClassNotFoundException(n);
                    }
                }
                return c != null ? c : super.loadClass(n, r);
            }
        }
    }
    static class Only extends ClassLoader {
        Only() {
            super(null);
        }
        protected Class<?> loadClass(String n, boolean r) throws ClassNotFoundException {
            Class<?> c = findLoadedClass(n);
            if (c != null) return c;
            if (n.startsWith("java.")) return super.loadClass(n, r);
            try (InputStream i = Loaders.class.getResourceAsStream("/" + n.replace('.', '/') + ".class")) {
                if (i == null) throw new ClassNotFoundException(n);
                byte[] b = i.readAllBytes();
                return defineClass(n, b, 0, b.length);
            } catch (IOException e) {
                throw new ClassNotFoundException(n);
            }
        }
    }
    public static void main(String[] a) throws Exception {
        ClassLoader own = Loaders.class.getClassLoader();
        for (ClassLoader l : new ClassLoader[] {new Last(own), new Last(own), own}) {
            Runnable r = (Runnable) l.loadClass("Loaders$W").getConstructor().newInstance();
            Thread t = new Thread(r);
            t.start();
            t.join();
        }
        ((Runnable) new Only().loadClass("Loaders$W").getConstructor().newInstance()).run();
    }
}
