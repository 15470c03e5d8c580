// S: a record is written as a whole, and read once by each method that uses it
public class RecordPublished {
    record Point(int x, int y) { }
    static volatile Point point = new Point(0, 0);
    static int difference() {
        Point now = point;
        Turns.say("read");
        Turns.await("moved");
        return now.x() - now.y();
    }
    static void move() { point = new Point(1, 1); }
    public static void main(String[] words) {
        Turns.run(() -> System.out.println(difference()), () -> {
            Turns.await("read");
            move();
            Turns.say("moved");
        });
    }
}
