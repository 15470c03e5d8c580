// V: two sections under one interned string in a block, and another thread's between them
public class InternedTwice {
    static int count;
    static int get(String name) {
        synchronized (name.intern()) {
            return count;
        }
    }
    static void add(String name) {
        int before = get(name);
        Turns.say("read");
        Turns.await("added");
        synchronized (name.intern()) {
            count = before + 1;
        }
    }
    public static void main(String[] words) {
        Turns.run(() -> add("lock"), () -> {
            Turns.await("read");
            synchronized (new String("lock").intern()) {
                count++;
            }
            Turns.say("added");
        });
    }
}
