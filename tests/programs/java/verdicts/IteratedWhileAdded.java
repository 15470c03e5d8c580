import java.util.concurrent.CopyOnWriteArrayList;

// S: who iterates over a list that is copied at each write sees it as it was, and nothing is added behind it in the block
public class IteratedWhileAdded {
    static final CopyOnWriteArrayList<Integer> list = new CopyOnWriteArrayList<>();
    static int sum() {
        int sum = 0;
        for (int one : list) sum += one;
        return sum;
    }
    public static void main(String[] words) {
        list.add(1);
        Turns.run(() -> {
            sum();
            Turns.say("summed");
        }, () -> {
            Turns.await("summed");
            list.add(2);
        });
        System.out.println(sum());
    }
}
