// V: a record is read, and one made from it is written, after another thread has written
public class RecordReplaced {
    record Range(int low, int high) {
        Range {
            if (low > high) throw new IllegalArgumentException();
        }
        Range raised(int most) { return new Range(low, Math.max(high, most)); }
    }
    static volatile Range range = new Range(0, 0);
    static void raise(int most, boolean first) {
        Range before = range;
        if (first) {
            Turns.say("read");
            Turns.await("raised");
        }
        range = before.raised(most);
    }
    public static void main(String[] words) {
        Turns.run(() -> raise(3, true), () -> {
            Turns.await("read");
            raise(9, false);
            Turns.say("raised");
        });
        System.out.println(range);
    }
}
