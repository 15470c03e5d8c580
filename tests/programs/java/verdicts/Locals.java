// S: each thread has its own number in a ThreadLocal, and counts it while the other does so
public class Locals {
    static class Number {
        int value;
    }
    private final ThreadLocal<Number> mine = ThreadLocal.withInitial(Number::new);

    void count() {
        mine.get().value++;
        Meet.both();
        mine.get().value++;
    }

    public static void main(String[] words) throws Exception {
        Locals it = new Locals();
        Meet.run(2, me -> it.count());
    }
}
