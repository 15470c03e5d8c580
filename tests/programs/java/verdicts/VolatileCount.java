// V: two threads count a volatile field
public class VolatileCount {
    private volatile int count;

    void count() {
        int before = count;
        Meet.both();
        count = before + 1;
    }

    public static void main(String[] words) throws Exception {
        VolatileCount it = new VolatileCount();
        Meet.run(2, me -> it.count());
    }
}
