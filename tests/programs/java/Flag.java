/** What is written before a volatile flag, and read once the flag is seen. */
public class Flag {
    static volatile boolean ready;
    static int data;
    static long wide;
    static double precise;
    static volatile long last;

    static void publish() {
        data = 42;
        wide = 1L << 40;
        precise = 2.5;
        last = wide;
        ready = true;
    }
    static int consume() { return data + (int) (wide >> 38) + (int) precise + (int) (last >> 40); }

    public static void main(String[] words) throws Exception {
        int[] got = new int[1];
        Meet.run(2, me -> {
            if (me == 0) publish();
            else {
                while (!ready) Thread.yield();
                got[0] = consume();
            }
        });
        System.out.println(got[0]);
    }
}
