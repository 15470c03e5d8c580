/** Ways out of blocks and monitors: exceptions, recursion, a full stack, a thread that dies. */
public class Leaving {
    static int calls;
    int depth;

    Leaving(boolean small) { this(small ? 1 : 2); }
    Leaving(int number) {
        super();
        depth = number;
        if (number == 7) throw new IllegalStateException("seven");
    }

    synchronized int factorial(int number) {
        depth++;
        try {
            return number <= 1 ? 1 : number * factorial(number - 1);
        } finally {
            depth--;
        }
    }
    synchronized void fail(int number) {
        depth = number;
        if (number == 0) throw new IllegalStateException("zero");
        synchronized (Leaving.class) {
            fail(number - 1);
        }
    }
    static synchronized void failStatic() {
        calls++;
        int[] array = new int[1];
        array[calls + 5] = 1;
    }
    int endless(int number) {
        depth = number;
        return endless(number + 1) + 1;
    }
    static void writeNull() { none().depth = 3; }
    static int readNull() { return none().depth; }
    static Leaving none() { return null; }
    static int element(int[] array) { return array[0]; }
    static void store(Object[] array) { array[0] = "no number"; }
    int returnThenWrite() {
        try {
            return depth;
        } finally {
            depth = 9;
        }
    }

    static void all() {
        Leaving it = new Leaving(true);
        Runnable[] all = {
            () -> it.fail(5), Leaving::failStatic, Leaving::writeNull, Leaving::readNull, () -> element(null),
            () -> element(new int[0]), () -> store(new Integer[1]), it::returnThenWrite, () -> new Leaving(7),
            () -> it.endless(0), () -> it.factorial(10)
        };
        for (Runnable one : all)
            try {
                one.run();
                System.out.print("returned ");
            } catch (Throwable thrown) {
                System.out.print(thrown.getClass().getSimpleName() + " ");
            }
    }

    public static void main(String[] words) throws Exception {
        Meet.run(1, me -> all());
        all();
        Thread dies = new Thread(() -> {
            throw new IllegalStateException("it dies");
        });
        dies.setUncaughtExceptionHandler((thread, thrown) -> System.out.println("died"));
        dies.start();
        dies.join();
    }
}
