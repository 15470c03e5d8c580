import java.util.concurrent.atomic.*;
// V: a class that extends AtomicInteger, by its own type: a method gets the count and sets it, and another thread adds in between
public class OwnCounter extends AtomicInteger {
    static final OwnCounter count = new OwnCounter();
    static void next() {
        int before = count.get();
        Turns.say("got");
        Turns.await("added");
        count.set(before + 1);
    }
    static void add() {
        count.incrementAndGet();
    }
    public static void main(String[] x) {
        Turns.run(OwnCounter::next, () -> {
            Turns.await("got");
            add();
            Turns.say("added");
        });
    }
}
