import java.util.concurrent.locks.*;
// S: another look at H1's cause by an interface's and a nested class's own static
public class OwnStatic {
    static class In {
        static int v;
        static In one = new In();
        static {
            Turns.say("s");
            Turns.sleep(200);
            touch(1);
        }
        static void touch(int i) {
            v = i;
        }
        int inst() {
            return v;
        }
    }
    static In early;
    public static void main(String[] a) {
        Turns.run(() -> In.touch(2), () -> {
            Turns.await("s");
            In.touch(3);
        });
        System.out.println("end");
    }
}
