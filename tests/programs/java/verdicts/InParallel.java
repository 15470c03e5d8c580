import java.util.Map;
import java.util.concurrent.atomic.LongAdder;
import java.util.stream.Collectors;
import java.util.stream.IntStream;

// S: parallel streams whose functions are blocks that share nothing, or add to what is made for that
public class InParallel {
    static final LongAdder adder = new LongAdder();
    static int square(int number) {
        adder.add(number);
        return number * number;
    }
    static boolean isEven(int number) { return number % 2 == 0; }
    public static void main(String[] words) {
        int sum = IntStream.range(0, 200).parallel().map(InParallel::square).filter(InParallel::isEven).sum();
        Map<Integer, Long> counts = IntStream.range(0, 100).parallel().boxed()
                .collect(Collectors.groupingByConcurrent(one -> one % 5, Collectors.counting()));
        System.out.println(sum + " " + counts.size() + " " + adder.sum());
    }
}
