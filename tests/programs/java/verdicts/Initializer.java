// S: a class whose initializer starts a thread that uses the class, while the initializer goes on (natively it ends)
public class Initializer implements Runnable {
    static final Initializer ONE = new Initializer();
    static int count = work();
    static int work() {
        Turns.sleep(300);
        return step(3);
    }
    static int step(int i) {
        return i + 1;
    }
    Initializer() {
        new Thread(this).start();
    }
    public void run() {
        bump();
    }
    private void bump() {
        count++;
        Turns.say("ran");
    }
    public static void main(String[] a) {
        Turns.await("ran");
        System.out.println("ran");
    }
}
