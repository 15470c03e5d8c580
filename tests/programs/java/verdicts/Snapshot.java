import java.util.concurrent.atomic.AtomicReference;

// V: an object that never changes is replaced by set, and not by compareAndSet: one of two updates is lost
public class Snapshot {
    static final class State {
        final int count;

        State(int count) { this.count = count; }
    }
    private final AtomicReference<State> state = new AtomicReference<>(new State(0));

    void count() {
        State before = state.get();
        Meet.both();
        state.set(new State(before.count + 1));
    }

    public static void main(String[] words) throws Exception {
        Snapshot it = new Snapshot();
        Meet.run(2, me -> it.count());
    }
}
