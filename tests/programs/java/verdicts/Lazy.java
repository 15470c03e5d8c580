// V: two threads see that there is no object, and each makes one, though each access has the monitor
public class Lazy {
    private Object object;

    private synchronized Object get() { return object; }
    private synchronized void set(Object made) { object = made; }
    Object lazy() {
        Object found = get();
        Meet.both();
        if (found == null) set(new Object());
        return get();
    }

    public static void main(String[] words) throws Exception {
        Lazy it = new Lazy();
        Meet.run(2, me -> it.lazy());
    }
}
