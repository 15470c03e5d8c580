// V: the same by the monitor of an object, held twice
public class WaitsInBlock {
    private int value;
    synchronized int waitForIt() throws InterruptedException {
        synchronized (this) {
            Turns.say("waits");
            while (value == 0) wait(1_000_000, 1);
            return value;
        }
    }
    synchronized void set() {
        value = 1;
        notifyAll();
    }
    public static void main(String[] words) throws Exception {
        WaitsInBlock it = new WaitsInBlock();
        Meet.run(2, me -> {
            if (me == 0) it.waitForIt();
            else {
                Turns.await("waits");
                it.set();
            }
        });
    }
}
