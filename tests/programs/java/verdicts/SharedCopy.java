// V: a child gets the very object that its parent has, and both use it at once
public class SharedCopy {
    static final InheritableThreadLocal<int[]> given = new InheritableThreadLocal<>();
    static void add(String mine, String other) {
        int before = given.get()[0];
        Turns.say(mine);
        Turns.await(other);
        given.get()[0] = before + 1;
    }
    public static void main(String[] words) throws Exception {
        given.set(new int[1]);
        Thread child = new Thread(() -> add("child", "parent"));
        child.start();
        add("parent", "child");
        child.join();
    }
}
