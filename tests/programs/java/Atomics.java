import java.util.concurrent.atomic.AtomicInteger;
import java.util.concurrent.atomic.AtomicIntegerFieldUpdater;
import java.util.concurrent.atomic.AtomicLongArray;
import java.util.concurrent.atomic.LongAdder;

/** One operation that adds is atomic; apart, a load and a store aren't. An updater's field is the field. */
public class Atomics {
    static final AtomicIntegerFieldUpdater<Atomics> STATE = AtomicIntegerFieldUpdater.newUpdater(Atomics.class, "state");

    final AtomicInteger count = new AtomicInteger();
    final AtomicLongArray array = new AtomicLongArray(3);
    final LongAdder adder = new LongAdder();
    volatile int state;

    void add() { count.incrementAndGet(); }
    void addToElement() { array.getAndAdd(1, 2); }
    void addByUpdater() { STATE.incrementAndGet(this); }
    int look() { return state; }
    void addToAdder() { adder.increment(); }
    void addApart() {
        int before = count.get();
        Meet.both();
        count.set(before + 1);
    }
    void lookAndAddByUpdater() {
        int before = state;
        Meet.both();
        STATE.compareAndSet(this, before, before + 1);
    }

    public static void main(String[] words) throws Exception {
        Atomics it = new Atomics();
        Meet.run(2, me -> {
            for (int one = 0; one < 5; one++) {
                if (words[0].equals("atomic")) {
                    it.add();
                    it.addToElement();
                    it.addByUpdater();
                    it.look();
                    it.addToAdder();
                } else {
                    it.addApart();
                    it.lookAndAddByUpdater();
                }
            }
        });
        try {
            it.array.get(17);
        } catch (IndexOutOfBoundsException wrong) {
            System.out.print("no such element, ");
        }
        System.out.println(it.count + " " + it.array.get(1) + " " + it.state + " " + it.adder.sum());
    }
}
