// V: double-checked locking: the result is right, but the first look and the lock aren't one by the events
public class CheckedTwice {
    private volatile Object object;

    Object get() {
        Object found = object;
        Meet.both();
        if (found != null) return found;
        synchronized (this) {
            if (object == null) object = new Object();
            return object;
        }
    }

    public static void main(String[] words) throws Exception {
        CheckedTwice it = new CheckedTwice();
        Meet.run(2, me -> it.get());
    }
}
