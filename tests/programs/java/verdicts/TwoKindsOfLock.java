// V: a static method and a method of an object hold different monitors, but count in one field; blames TwoKindsOfLock.enter
public class TwoKindsOfLock {
    private static int visitors;

    static synchronized void enter(Runnable between) {
        int old = visitors;
        between.run();
        visitors = old + 1;
    }

    synchronized void enterByBus(int people) { visitors += people; }

    public static void main(String[] words) {
        TwoKindsOfLock door = new TwoKindsOfLock();
        Turns.run(() -> TwoKindsOfLock.enter(() -> {
            Turns.say("old number");
            Turns.await("bus");
        }), () -> {
            Turns.await("old number");
            door.enterByBus(40);
            Turns.say("bus");
        });
        System.out.println(visitors);
    }
}
