import java.util.concurrent.Exchanger;

// S: two threads swap what they have filled by an Exchanger, and empty what they got
public class Swap {
    static class Buffer {
        int size;

        void fill() { size = size + 5; }
        void empty() { size = size - 5; }
    }

    public static void main(String[] words) throws Exception {
        Exchanger<Buffer> exchanger = new Exchanger<>();
        Meet.run(2, me -> {
            Buffer mine = new Buffer();
            for (int time = 0; time < 10; time++) {
                mine.fill();
                mine = exchanger.exchange(mine);
                mine.empty();
            }
        });
    }
}
