// S: a flag is waited for by wait and notifyAll; who waits isn't a block, and what it does then is
public class Signal {
    private boolean isReady;
    private int value;

    synchronized void ready() {
        value = value + 1;
        isReady = true;
        notifyAll();
    }
    int use() { return value + value; }

    public static void main(String[] words) throws Exception {
        Signal it = new Signal();
        Meet.run(2, me -> {
            if (me == 1) {
                it.ready();
                return;
            }
            synchronized (it) {
                while (!it.isReady) it.wait();
            }
            it.use();
        });
    }
}
