import java.util.Arrays;
import java.util.stream.IntStream;

// S: a parallel stream adds up an array that was filled before, and what it gives is written behind it
public class Streams {
    private final int[] numbers = new int[100];
    private long total;

    void fill(int by) {
        for (int one = 0; one < numbers.length; one++) numbers[one] += by;
    }
    int at(int one) { return numbers[one] + numbers[one]; }

    public static void main(String[] words) {
        Streams it = new Streams();
        for (int time = 0; time < 3; time++) {
            it.fill(time);
            it.total += IntStream.range(0, 100).parallel().map(it::at).sum();
            it.total += Arrays.stream(it.numbers).sum();
        }
        if (it.total == 0) throw new AssertionError();
    }
}
