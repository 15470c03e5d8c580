/** Methods with `finally` that fill stacks of several sizes: for some of them no room is left for the hook behind which it begins. */
public class Full {
    static int ended;

    static void nothing() { }
    static long finishing(long more) {
        try {
            return finishing(more + 1) + 1;
        } finally {
            nothing();
        }
    }
    static void full() {
        try {
            finishing(1);
        } catch (StackOverflowError wanted) {
            ended++;
        }
    }

    public static void main(String[] words) throws Exception {
        for (int one = 0; one < 30; one++) {
            Thread small = new Thread(null, Full::full, "small", (1 << 18) + (one << 12));
            small.start();
            small.join();
        }
        System.out.println(ended);
    }
}
