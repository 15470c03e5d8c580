import java.lang.invoke.MethodHandles;
import java.lang.invoke.VarHandle;
import java.util.concurrent.ForkJoinPool;
import java.util.concurrent.RecursiveTask;

// S: each reader loads the whole configuration once, and each change stores a new one
public class ConfigByHandle {
    record Config(String host, int port) {
        Config withPort(int other) { return new Config(host, other); }
    }

    private static final VarHandle CURRENT;
    static {
        try {
            CURRENT = MethodHandles.lookup().findStaticVarHandle(ConfigByHandle.class, "current", Config.class);
        } catch (ReflectiveOperationException impossible) {
            throw new ExceptionInInitializerError(impossible);
        }
    }
    private static Config current = new Config("localhost", 80);

    static String address(Runnable between) {
        Config now = (Config) CURRENT.getAcquire();
        String host = now.host();
        between.run();
        return host + ":" + now.port();
    }

    static void moveTo(String host, int port) { CURRENT.setRelease(new Config(host, 80).withPort(port)); }

    static class Lengths extends RecursiveTask<Integer> {
        private final int times;
        Lengths(int times) { this.times = times; }

        @Override protected Integer compute() {
            if (times == 1) return address(() -> { }).length();
            Lengths left = new Lengths(times / 2);
            left.fork();
            return new Lengths(times - times / 2).compute() + left.join();
        }
    }

    public static void main(String[] words) {
        ForkJoinPool pool = new ForkJoinPool(2);
        Turns.run(() -> System.out.println(address(() -> {
            Turns.say("half an address");
            Turns.await("moved");
        })), () -> {
            Turns.await("half an address");
            moveTo("example.org", 8080);
            Turns.say("moved");
            System.out.println(pool.invoke(new Lengths(8)));
        });
        pool.shutdown();
    }
}
