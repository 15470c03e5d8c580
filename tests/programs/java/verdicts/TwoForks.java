import java.util.concurrent.*;
// V: a block gives two tasks by invokeAll and waits for them; another thread takes the second in its midst
public class TwoForks {
    static class Part extends RecursiveAction {
        final boolean isSecond;
        Part(boolean isSecond) {
            this.isSecond = isSecond;
        }
        @Override protected void compute() {
            if (isSecond) Turns.say("second");
            else Turns.await("second");
        }
    }
    static class All extends RecursiveAction {
        @Override protected void compute() {
            both();
        }
        void both() {
            invokeAll(new Part(false), new Part(true));
        }
    }
    public static void main(String[] x) {
        new ForkJoinPool(2).invoke(new All());
    }
}
