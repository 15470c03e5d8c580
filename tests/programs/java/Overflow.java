/** A stack that overflows in blocks, in synchronized methods and in synchronized blocks; the thread goes on, and then others do. */
public class Overflow {
    int count;

    synchronized int inMethods() {
        count++;
        return inMethods() + 1;
    }
    int inBlocks() {
        count++;
        return inBlocks() + 1;
    }
    int inMonitors() {
        synchronized (this) {
            count++;
            return inMonitors() + 1;
        }
    }
    synchronized void add() { count++; }

    static void full(Runnable calls) {
        try {
            calls.run();
        } catch (StackOverflowError wanted) {
            // The stack is empty again.
        }
    }

    public static void main(String[] words) throws Exception {
        Overflow it = new Overflow();
        for (int one = 0; one < 3; one++) {
            Thread small = new Thread(null, () -> {
                full(it::inMethods);
                it.add();
                full(it::inBlocks);
                it.add();
                full(it::inMonitors);
                it.add();
            }, "small", 1 << 18);
            small.start();
            small.join();
            Meet.run(2, me -> it.add());
        }
        it.count = 0;
        it.add();
        System.out.println(it.count);
    }
}
