import java.net.URL;
import java.net.URLClassLoader;

// S: each of two loaders has the class: neither its monitor nor its static field is the other's, and both are in use at once
public class ByTwoLoaders {
    public static class Guarded implements Runnable {
        static int calls;
        static synchronized void work(boolean isFirst) {
            calls++;
            meet(isFirst ? "first" : "second", isFirst ? "second" : "first");
            calls++;
        }
        /** By what all loaders share, and nobody logs. */
        static void meet(String mine, String other) {
            System.setProperty("aerodrome.tests." + mine, "true");
            while (!Boolean.getBoolean("aerodrome.tests." + other)) Thread.yield();
        }
        @Override public void run() { work(Thread.currentThread().getName().equals("first")); }
    }
    /** It has the class itself, and asks others for all the rest. */
    static class Own extends URLClassLoader {
        Own(URL... from) { super(from, ByTwoLoaders.class.getClassLoader()); }
        @Override protected Class<?> loadClass(String name, boolean resolve) throws ClassNotFoundException {
            synchronized (getClassLoadingLock(name)) {
                if (!name.endsWith("Guarded")) return super.loadClass(name, resolve);
                Class<?> known = findLoadedClass(name);
                return known != null ? known : findClass(name);
            }
        }
    }
    static Runnable made() throws Exception {
        URL here = ByTwoLoaders.class.getProtectionDomain().getCodeSource().getLocation();
        return (Runnable) new Own(here).loadClass("ByTwoLoaders$Guarded").getConstructor().newInstance();
    }
    public static void main(String[] words) throws Exception {
        Thread first = new Thread(made(), "first"), second = new Thread(made(), "second");
        first.start();
        second.start();
        first.join();
        second.join();
        System.out.println("ok");
    }
}
