// S: two stripes have a lock each; threads that overlap use different ones
public class Stripes {
    private final Object[] locks = {new Object(), new Object()};
    private final int[] counts = new int[2];

    void count(int stripe) {
        synchronized (locks[stripe]) {
            counts[stripe]++;
            Meet.both();
        }
        synchronized (locks[stripe]) {
            counts[stripe]++;
        }
    }

    public static void main(String[] words) throws Exception {
        Stripes it = new Stripes();
        Meet.run(2, it::count);
    }
}
