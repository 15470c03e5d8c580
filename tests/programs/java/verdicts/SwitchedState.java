// V: a state is read by a switch and set later, by a lambda within the method; another thread sets it in between
public class SwitchedState {
    enum State { NEW, OPEN, SHUT }
    static volatile State state = State.NEW;

    static void advance() {
        switch (state) {
            case NEW:
                Turns.say("read");
                Turns.await("set");
                Runnable sets = () -> state = State.OPEN;
                sets.run();
                break;
            default:
                state = State.SHUT;
        }
    }
    static void shut() { state = State.SHUT; }
    public static void main(String[] words) {
        Turns.run(SwitchedState::advance, () -> {
            Turns.await("read");
            shut();
            Turns.say("set");
        });
    }
}
