// S: a thread of a class of its own counts in its fields, and who joins it reads them
public class JoinedSubclass {
    static class Counter extends Thread {
        int counted;
        void count() { counted++; }
        @Override public void run() {
            for (int one = 0; one < 20; one++) count();
        }
    }
    static int sum(Counter... all) throws InterruptedException {
        int sum = 0;
        for (Counter one : all) {
            one.join();
            sum += one.counted;
        }
        return sum;
    }
    public static void main(String[] words) throws InterruptedException {
        Counter one = new Counter(), other = new Counter();
        one.start();
        other.start();
        System.out.println(sum(one, other));
    }
}
