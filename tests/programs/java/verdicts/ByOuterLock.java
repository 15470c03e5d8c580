// V: an inner class takes the lock of the object around it twice, to look and to change
public class ByOuterLock {
    private int total;

    class Door {
        int look() {
            synchronized (ByOuterLock.this) {
                return total;
            }
        }
        void change(int to) {
            synchronized (ByOuterLock.this) {
                total = to;
            }
        }
        void addOne() {
            int seen = look();
            Turns.say("looked");
            Turns.await("changed");
            change(seen + 1);
        }
    }
    public static void main(String[] words) {
        ByOuterLock it = new ByOuterLock();
        Door one = it.new Door(), other = it.new Door();
        Turns.run(one::addOne, () -> {
            Turns.await("looked");
            other.change(7);
            Turns.say("changed");
        });
    }
}
