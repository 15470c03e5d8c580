import java.util.concurrent.locks.ReentrantLock;

// S: interfaces with private and static methods, sealed classes, and a lock in their common base
public class SealedShapes {
    sealed interface Shape permits Square, Strip {
        int area();
        private int twice() { return 2 * area(); }
        default int size() { return twice(); }
        static Shape of(int side) { return side % 2 == 0 ? new Square(side) : new Strip(side); }
    }
    record Square(int side) implements Shape {
        @Override public int area() { return side * side; }
    }
    record Strip(int length) implements Shape {
        @Override public int area() { return length; }
    }
    static final ReentrantLock LOCK = new ReentrantLock();
    static int sum;
    static void add(Shape shape) {
        LOCK.lock();
        try {
            sum += shape instanceof Square square ? square.side() : shape.size();
        } finally {
            LOCK.unlock();
        }
    }
    static void run() {
        for (int side = 0; side < 40; side++) add(Shape.of(side));
    }
    public static void main(String[] words) {
        Turns.run(SealedShapes::run, SealedShapes::run);
        System.out.println(sum);
    }
}
