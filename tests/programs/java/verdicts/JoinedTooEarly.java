// S: a join that gives up doesn't come behind the thread, which goes on
public class JoinedTooEarly {
    static volatile int told;
    static int work() {
        Turns.say("works");
        Turns.await("told");
        return told;
    }
    public static void main(String[] words) throws Exception {
        Thread other = new Thread(JoinedTooEarly::work);
        other.start();
        Turns.await("works");
        other.join(2);
        told = 1;
        Turns.say("told");
        other.join();
        Turns.L.clear();
        System.out.println("ok");
    }
}
